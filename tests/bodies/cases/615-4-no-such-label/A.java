class A {
    void m() {
        a: m();
        break a;
    }
}
