class A {
    void go(Object o) { }
    void m() {
        this.<String>go(1);
    }
}
