class B extends C implements
    Nope { }
class C {
    static class M { }
}
