class A<T> {
    static volatile T method() { return null; }
}
