class A {
    void m();
}
