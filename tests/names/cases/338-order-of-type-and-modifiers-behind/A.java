class A {
    Nope field;
    volatile void method() { }
}
