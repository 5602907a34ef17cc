class A<T> {
    void k(T t) { }
    void k(String s) { }
    static void m(A<String> a) {
        a.k("s");
    }
}
