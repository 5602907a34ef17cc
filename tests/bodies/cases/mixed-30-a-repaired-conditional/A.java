class P<A, B extends A> {
    B b;
}
class A {
    void m(boolean c, P<Number, Integer> x, P<Object, Integer> y) {
        Integer i = (c ? x : y).b;
        (c ? x : y).b = 5;
    }
}
