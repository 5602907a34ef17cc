class A {
    A known;
    transient A() { } volatile void method() { } abstract int number;
}
