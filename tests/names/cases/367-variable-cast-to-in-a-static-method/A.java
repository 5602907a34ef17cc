class A<T> {
    T first(Object value) { return (T) value; }
    static Object second(Object value) {
        return (T[]) value;
    }
}
