class A {
    static Object m() {
        return this;
    }
}
