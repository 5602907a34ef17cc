class A<T> {
    @SafeVarargs private void method(T... all) { }
}
