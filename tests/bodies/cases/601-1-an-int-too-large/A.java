class A {
    int m() {
        return 2147483648;
    }
}
