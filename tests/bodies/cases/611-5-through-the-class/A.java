class A {
    int f;
    int m() {
        return A.f;
    }
}
