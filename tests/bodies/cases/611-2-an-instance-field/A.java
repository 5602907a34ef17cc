class A {
    int f;
    static int m() {
        return f;
    }
}
