class A {
    void method(int one) { }
    void other(int one) { }
    static <T> void third(T two, int three,
        T three, int two) { }
}
