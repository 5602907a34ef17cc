class A {
    void m() throws String { }
}
