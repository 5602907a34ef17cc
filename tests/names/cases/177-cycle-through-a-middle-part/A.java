class A extends B.C.D { }
class B {
    static class C extends A {
        static class D { }
    }
}
