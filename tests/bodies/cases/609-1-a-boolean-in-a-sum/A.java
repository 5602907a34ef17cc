class A {
    int m(int a, boolean b) {
        return 1 * a + b;
    }
}
