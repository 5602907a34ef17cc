class A {
    void m() {
        return;
        ;
    }
}
