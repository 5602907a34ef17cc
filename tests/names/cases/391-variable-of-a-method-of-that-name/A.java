class A<T> {
    <T> void first(T it) { }
    static <U> void second(T it) { }
}
