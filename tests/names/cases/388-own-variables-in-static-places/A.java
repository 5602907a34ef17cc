class A<T> {
    static <T extends Number> int method(T it) {
        T local = it;
        return local.intValue();
    }
    static class B<T> {
        T field;
        <U extends T> U method(U it) { return it; }
    }
    interface I<T> {
        T method(T it);
    }
}
