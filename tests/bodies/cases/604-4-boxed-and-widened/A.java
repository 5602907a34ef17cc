class A {
    void go(Long a) { }
    void m() {
        go(1);
    }
}
