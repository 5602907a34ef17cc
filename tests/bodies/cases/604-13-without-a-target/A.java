class A {
    static <T> T make() {
        return null;
    }
    void m(String s) {
        m(make());
    }
}
