class A<T> {
    Object m() {
        return new T[1];
    }
}
