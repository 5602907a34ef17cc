class A {
    void m() {
        try {
            m();
        } catch (String s) {
            m();
        }
    }
}
