class A {
    private static int f() {
        return 1;
    }
    static <T extends A> int m(T t) {
        return A.f() + t.f();
    }
}
