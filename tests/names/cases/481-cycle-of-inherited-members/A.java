class A extends B {
    static class N extends D { }
}
class B {
    static class D extends A.N { }
}
