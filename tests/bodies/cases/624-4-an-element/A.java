class B<T extends Number> { }
class D<X extends Comparable<X>> {
    B<? extends X>[] all;
}
class A {
    void m(D<String> d) {
        for (B<?> b : d.all) m(d);
    }
}
