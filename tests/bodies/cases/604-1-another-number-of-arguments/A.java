class A {
    void go(int a) { }
    void m() {
        go(1, 2);
    }
}
