class A {
    int m(int a) {
        return - ++a + ++-a;
    }
}
