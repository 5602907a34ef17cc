class A {
    static class M extends B.M { }
    static class N { }
}
class B {
    static class M { }
    static class N extends A.N { }
}
