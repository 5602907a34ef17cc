class A {
    void go() { }
    void m(Object o) {
        m((go()));
    }
}
