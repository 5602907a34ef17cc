class A {
    int m() {
        int x;
        while (true) {
            try { break; } finally { x = 1; }
        }
        return x;
    }
}
