class A {
    void m(Object o) {
        throw o;
    }
}
