class A {
    static A() { }
}
