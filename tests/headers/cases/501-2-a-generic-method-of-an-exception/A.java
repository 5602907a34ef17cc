class A extends Exception {
    <T> T m(T t) {
        return t;
    }
}
