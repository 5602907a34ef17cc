class A {
    volatile Nope method() { return null; }
}
