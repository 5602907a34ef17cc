class A {
    void m() {
        final int x;
        x += 1;
    }
}
