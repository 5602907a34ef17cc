class A {
    void m() {
        final int x;
        try { x = 1; m(); } catch (RuntimeException e) {
            x = 2;
        }
    }
}
