class B<T> {
    T it;
}
class A {
    private int f;
    static int m(B<? extends A> b) {
        A a = b.it;
        return a.f + b.it.f;
    }
}
