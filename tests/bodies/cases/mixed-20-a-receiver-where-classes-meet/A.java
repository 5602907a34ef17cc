class B<T extends Number> {
    int f;
}
class D<X extends Comparable<X>, Y extends B<? extends X>> {
    Y it;
}
class A {
    int m(D<Integer, B<Integer>> c, D<String, ?> d) {
        return c.it.f + d.it.f;
    }
}
