class A {
    void m() {
        go(1);
    }
}
