class A {
    void m() {
        return m();
    }
}
