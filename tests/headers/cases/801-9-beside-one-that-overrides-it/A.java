class A<T> {
    void m(T t) { }
}
class B<T extends Number> extends A<T> {
    void m(Number n) { }
}
class C extends B<Integer> {
    void m(Number n) { }
    void m(Integer i) { }
}
