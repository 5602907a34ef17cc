class B<T extends Number> { }
class D<X extends Comparable<X>> {
    B<? extends X> it() {
        return null;
    }
}
class A {
    void m(D<String> d) {
        d.it();
    }
}
