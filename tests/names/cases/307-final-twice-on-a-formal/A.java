interface A {
    void method(final final int first);
}
