class A {
    static <T extends Comparable<T>> T most(T a, T b) {
        return a;
    }
    void m(Object o) {
        most(o, o);
    }
}
