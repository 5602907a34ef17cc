class A {
    void method() {
        Nope.call();
    }
}
