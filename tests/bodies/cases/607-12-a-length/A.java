class A {
    Object m() {
        return new int[1][true];
    }
}
