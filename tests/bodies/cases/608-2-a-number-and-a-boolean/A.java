class A {
    int m(boolean b) {
        return (int) b;
    }
}
