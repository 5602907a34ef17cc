class A {
    static void k(Object... o) { }
    static void k(Integer a) { }
    static void k(long a) { }
    void m() {
        k(5);
    }
}
