interface A {
    void m() { }
}
