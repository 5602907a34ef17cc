class A {
    byte m(boolean b) {
        return b ? 1 : 2;
    }
}
