class A {
    void m() {
        return;
        int x = 1;
    }
}
