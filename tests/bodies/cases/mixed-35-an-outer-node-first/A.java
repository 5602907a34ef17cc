class A {
    A m(int a) {
        return m("x").m(c());
    }
    int c() {
        return 1;
    }
}
