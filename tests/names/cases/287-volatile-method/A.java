class A {
    volatile void method() { }
}
