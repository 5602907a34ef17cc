class A<T> {
    boolean m(Object o) {
        return o instanceof T;
    }
}
