class A {
    static <T> T make() {
        return null;
    }
    void m() {
        boolean b = make();
        if (make()) m();
    }
}
