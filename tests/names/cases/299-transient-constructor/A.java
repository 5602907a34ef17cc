class A {
    transient A() { }
}
