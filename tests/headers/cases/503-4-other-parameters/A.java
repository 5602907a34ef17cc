class A {
    void m() { }
    void m(int i) { }
    void m(long i) { }
    void m(String s) { }
}
