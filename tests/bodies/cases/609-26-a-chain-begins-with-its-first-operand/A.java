class A {
    int m(int a, boolean b) {
        return (a) - 1
            + a
            - b;
    }
}
