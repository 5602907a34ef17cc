import java.util.Comparator;
class B<T extends Number> {
    T t;
}
class D<X> {
    B<? extends Number> it;
    B<?> other;
}
class A {
    void m(D<String> d, B<? extends Integer> b, B<? extends Comparable<?>> c) {
        Number n = d.it.t;
        Number o = d.other.t;
        int p = b.t;
        Number q = c.t;
        Comparable<?> r = c.t;
    }
}
