class A {
    int f;
    static int g;
    static class B {
        void m(A a) {
            a.f = g;
            f = g;
        }
    }
}
