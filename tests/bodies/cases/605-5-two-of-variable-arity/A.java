class A {
    void k(int... a) { }
    void k(Integer... a) { }
    void m() {
        k(1, 2);
    }
}
