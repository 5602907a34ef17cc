class A {
    void method() {
        volatile int number = 1;
    }
}
