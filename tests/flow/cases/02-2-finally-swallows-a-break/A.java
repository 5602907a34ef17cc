class A {
    void m() {
        while (true) {
            try { break; } finally { while (true) { } }
        }
        m();
    }
}
