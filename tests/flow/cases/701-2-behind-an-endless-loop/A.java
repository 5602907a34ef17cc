class A {
    void m() {
        while (true) { }
        m();
    }
}
