class A {
    void m() {
        final int x;
        try { x = 1; return; } finally {
            x = 2;
        }
    }
}
