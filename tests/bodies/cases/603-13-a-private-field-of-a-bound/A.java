class A {
    private int f;
    static <T extends A> int m(T t) {
        return ((A) t).f + t.f;
    }
}
