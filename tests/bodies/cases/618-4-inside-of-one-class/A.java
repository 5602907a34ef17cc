class A {
    private int f;
    private static class B {
        private int g;
        private B() { }
        private static void go() { }
    }
    static class C {
        int m(A a) {
            B.go();
            return a.f + new B().g;
        }
    }
    private void k(int a) { }
    void k(long a) { }
}
class D {
    void m(A a) {
        a.k(1);
    }
}
