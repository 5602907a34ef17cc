class A {
    int m() {
        return;
    }
}
