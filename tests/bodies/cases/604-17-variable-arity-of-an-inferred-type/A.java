class B {
    private static class C { }
    static C c;
}
class A {
    static <T> T same(T t) {
        return t;
    }
    static <T> void go(T... t) { }
    void m() {
        Object o = same(B.c);
        A.<Object>go(B.c);
        go(B.c);
    }
}
