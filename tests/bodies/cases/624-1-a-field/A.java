class B<T extends Number> { }
class D<X extends Comparable<X>> {
    B<? extends X> it;
}
class A {
    void m(D<Integer> c, D<String> d) {
        Object n = c.it;
        Object o = d.it;
    }
}
