class A<T> {
    static <U extends Comparable<T>> void method(U it) { }
}
