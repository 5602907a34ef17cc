class A {
    void method() {
        final final int number = 1;
    }
}
