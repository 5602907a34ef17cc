class A {
    static class M extends B.M { }
}
class B {
    static class M extends A.M { }
}
