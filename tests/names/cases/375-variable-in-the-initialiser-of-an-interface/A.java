interface A<T> {
    Object FIELD = (T) null;
}
