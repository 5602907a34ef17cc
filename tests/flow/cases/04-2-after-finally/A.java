class A {
    int m() {
        int x;
        try { m(); } catch (RuntimeException e) { } finally { x = 1; }
        return x;
    }
}
