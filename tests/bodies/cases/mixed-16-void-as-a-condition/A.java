class A {
    void m() {
        while (m()) m();
    }
}
