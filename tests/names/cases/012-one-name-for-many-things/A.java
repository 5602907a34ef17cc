class A {
    int M;
    static class M { }
    M M(M M) {
        return M;
    }
    void A() { }
    int A;
}
