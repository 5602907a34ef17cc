class A {
    void m(long a) {
        switch (a) {
            default:
        }
    }
}
