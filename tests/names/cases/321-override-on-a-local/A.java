class A {
    void method() {
        @Override int number;
    }
}
