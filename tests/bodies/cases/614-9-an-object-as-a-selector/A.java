class A {
    void m(Object a, Boolean b) {
        switch (a) {
            default:
        }
        switch (b) {
            default:
        }
    }
}
