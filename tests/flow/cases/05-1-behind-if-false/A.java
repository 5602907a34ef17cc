class A {
    void m() {
        final int x;
        if (false) { x = 1; }
        x = 2;
    }
}
