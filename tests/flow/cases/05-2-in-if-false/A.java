class A {
    void m() {
        final int x;
        x = 1;
        if (false) { x = 2; }
    }
}
