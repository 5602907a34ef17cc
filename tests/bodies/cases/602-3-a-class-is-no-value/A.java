class A {
    Object m() {
        return String;
    }
}
