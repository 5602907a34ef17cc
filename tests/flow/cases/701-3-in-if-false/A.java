class A {
    void m() {
        if (false) {
            m();
        }
        if (true) return;
        m();
    }
}
