class A {
    void method(B.I it) { }
}
