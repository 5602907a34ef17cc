class A extends B.M { }
class B extends C { }
class C {
    static class M { }
}
