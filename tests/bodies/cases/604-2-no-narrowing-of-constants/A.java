class A {
    void go(byte b) { }
    void m() {
        go(1);
    }
}
