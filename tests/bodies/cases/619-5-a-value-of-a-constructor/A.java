class A {
    A(int a) {
        return this;
    }
}
