class A {
    Object m() {
        return getClass();
    }
}
