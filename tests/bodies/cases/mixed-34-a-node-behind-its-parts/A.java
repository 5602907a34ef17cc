class A {
    void m(int a) {
        m("x" + b);
    }
}
