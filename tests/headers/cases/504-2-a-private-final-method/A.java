class A {
    private final void m() { }
    final void n() { }
}
class B extends A {
    void m() { }
    void n(int i) { }
}
