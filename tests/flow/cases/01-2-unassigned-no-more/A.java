class A {
    void m() {
        final int x;
        while (true) {
            try { break; } finally { x = 1; }
        }
        x = 2;
    }
}
