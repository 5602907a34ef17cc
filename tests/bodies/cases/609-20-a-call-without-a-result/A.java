class A {
    void go() { }
    void m() {
        go();
        this.go();
        Object o = go();
    }
}
