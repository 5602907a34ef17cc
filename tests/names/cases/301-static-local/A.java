class A {
    void method() {
        static int number = 1;
    }
}
