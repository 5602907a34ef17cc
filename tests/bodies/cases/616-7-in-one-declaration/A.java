class A {
    void m() {
        int a = 1, b = a, a[] = {b};
    }
}
