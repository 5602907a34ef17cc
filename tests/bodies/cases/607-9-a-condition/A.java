class A {
    void m(int a) {
        if (a) m(1);
    }
}
