class A {
    Object m() {
        return new Object<>();
    }
}
