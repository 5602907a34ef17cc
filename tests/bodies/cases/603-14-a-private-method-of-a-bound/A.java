class A {
    private int f() {
        return 1;
    }
    static <T extends A> int m(T t) {
        return ((A) t).f() + t.f();
    }
}
