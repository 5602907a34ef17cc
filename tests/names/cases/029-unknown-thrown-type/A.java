class A {
    void method() throws RuntimeException, Nope { }
}
