class A {
    void m(boolean b, int c, int d) {
        (c) = 1;
        (b ? c : d) = 1;
    }
}
