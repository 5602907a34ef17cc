class A {
    void m() {
        int e = 1;
        try {
            m();
        } catch (RuntimeException e) {
            m();
        }
    }
}
