class A {
    @Override
    void m() { }
}
