class A<T> {
    static class B<T> { }
    <T> T method(T it) {
        return it;
    }
    static <T> void other(T it) { }
    interface I<T> {
        <U, T> T method(U u);
    }
}
