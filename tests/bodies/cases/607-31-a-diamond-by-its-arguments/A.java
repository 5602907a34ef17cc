class B<T> {
    B(T t) { }
}
class A {
    B<? extends Number> a = new B<>(1);
    B<Number> b = new B<>(1);
}
