class A {
    static void k(Integer a, Object b) { }
    static void k(Object a, Integer b) { }
    void m() {
        k(1, 1);
    }
}
