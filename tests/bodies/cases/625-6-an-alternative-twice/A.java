class A {
    void m() {
        try {
            m();
        } catch (ArithmeticException | NullPointerException | ArithmeticException e) {
            m();
        }
    }
}
