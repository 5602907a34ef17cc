class A {
    void m() {
        throw 1;
    }
}
