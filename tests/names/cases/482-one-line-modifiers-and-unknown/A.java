class A {
    volatile void method() { } Nope field;
}
