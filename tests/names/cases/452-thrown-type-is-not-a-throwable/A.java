class A {
    void method() throws A { }
}
