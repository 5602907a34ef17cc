class A {
    void go() { }
    int m() {
        return go();
    }
}
