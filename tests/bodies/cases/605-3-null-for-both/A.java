class A {
    void k(String s) { }
    void k(Integer i) { }
    void m() {
        k(null);
    }
}
