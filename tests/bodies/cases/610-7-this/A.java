class A {
    void m() {
        this = null;
    }
}
