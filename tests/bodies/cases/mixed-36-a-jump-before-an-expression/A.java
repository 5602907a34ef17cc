class A {
    void m(int a) {
        return a + b;
    }
}
