class B<T> {
    T f;
}
class A {
    void m(B<? extends Number> b, B<? super Integer> c) {
        b.f = null;
        c.f = 1;
        b.f = 1;
    }
}
