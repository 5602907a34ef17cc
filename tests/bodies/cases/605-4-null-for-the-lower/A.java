class A {
    void k(Object o) { }
    void k(Number n) { }
    void k(Integer i) { }
    void m() {
        k(null);
    }
}
