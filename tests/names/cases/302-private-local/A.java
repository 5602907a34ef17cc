class A {
    void method() {
        private final int number = 1;
    }
}
