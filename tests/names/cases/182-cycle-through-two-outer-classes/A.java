class A extends B.M { }
class B {
    static class M extends C.N { }
}
class C extends A {
    static class N { }
}
