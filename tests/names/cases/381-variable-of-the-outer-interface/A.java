interface A<T> {
    class B {
        T method() { return null; }
    }
    T method();
}
