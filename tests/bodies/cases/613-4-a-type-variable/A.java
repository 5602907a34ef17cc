class A<T> {
    T m() {
        return new T();
    }
}
