class A {
    void m(int i) {
        for (;; i++) { break; }
        throw null;
    }
}
