class A<T> {
    static class B<U> {
        static class C<V> {
            V first;
            T second;
        }
    }
}
