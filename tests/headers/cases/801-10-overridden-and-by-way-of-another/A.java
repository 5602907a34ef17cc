class A<T> {
    void m(T t) { }
    static <N extends Number> void s(N n) { }
}
class B<T extends Number> extends A<T> {
    void m(Number n) { }
    static void s(Number n) { }
}
class C extends B<Number> {
    void m(Number n) { }
    static void s(Number n) { }
}
class D extends C {
    void m(Number n) { }
    static void s(Number n) { }
}
