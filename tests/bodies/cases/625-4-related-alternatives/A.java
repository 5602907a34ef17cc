class A {
    void m() {
        try {
            m();
        } catch (ArithmeticException | RuntimeException e) {
            m();
        }
    }
}
