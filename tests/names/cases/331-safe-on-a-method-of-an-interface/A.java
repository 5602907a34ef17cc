interface A<T> {
    @SafeVarargs void method(T... all);
}
