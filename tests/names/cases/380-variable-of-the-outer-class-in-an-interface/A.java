class A<T> {
    interface I {
        void method(T it);
    }
}
