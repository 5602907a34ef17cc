class A {
    int go() {
        return 1;
    }
    void m() {
        go() = 1;
    }
}
