interface A<T> {
    T FIELD = null;
}
