class A {
    void first() { }

    @Deprecated
    volatile
    void method() { }
}
