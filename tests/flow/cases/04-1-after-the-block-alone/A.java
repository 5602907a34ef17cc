class A {
    int m() {
        int x;
        try { x = 1; } catch (RuntimeException e) { }
        return x;
    }
}
