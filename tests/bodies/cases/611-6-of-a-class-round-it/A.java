class A {
    void go() { }
    int f;
    static class B {
        void m() {
            go();
        }
    }
}
