class B {
    static class C {
        static int f;
    }
    static String D;
    static class D {
        static int f;
    }
}
class A {
    int m() {
        return B.C.f + B.D.f;
    }
}
