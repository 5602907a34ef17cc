class A {
    int m() {
        int x;
        return x;
    }
}
