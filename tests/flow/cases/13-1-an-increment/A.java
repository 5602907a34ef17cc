class A {
    void m() {
        int x;
        x++;
    }
}
