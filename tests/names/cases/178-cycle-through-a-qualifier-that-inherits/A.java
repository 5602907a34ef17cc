class A extends B.M { }
class B extends A { }
class C {
    static class M { }
}
