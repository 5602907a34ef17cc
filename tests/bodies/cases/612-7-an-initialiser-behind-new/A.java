class A<T> {
    T[] m(T t) {
        return new T[] {t};
    }
}
