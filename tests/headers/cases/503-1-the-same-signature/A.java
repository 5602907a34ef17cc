class A {
    void m(int i) { }
    int m(int j) { return j; }
}
