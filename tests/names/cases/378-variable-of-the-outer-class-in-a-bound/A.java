class A<T> {
    static class B<U extends T> { }
}
