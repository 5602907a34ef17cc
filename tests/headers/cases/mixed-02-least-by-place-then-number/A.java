class A {
    final void m() { }
}
class B extends A {
    static Object m() { return null; }
    void n();
}
