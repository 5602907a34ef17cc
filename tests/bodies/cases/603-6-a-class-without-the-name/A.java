class A {
    int m() {
        return Integer.nothing.length();
    }
}
