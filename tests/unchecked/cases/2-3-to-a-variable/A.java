class A<T> {
    <U extends T> void f(Object o, T t) {
        Object p;
        p = (T) o;
        p = (U) t;
    }
}
