class A {
    private int g(int i) {
        return 1;
    }
    int g(Object o) {
        return 2;
    }
    static <T extends A> int m(T t, A a) {
        return a.g(1) + t.g(1);
    }
}
