class A<T> {
    <U extends T> void f(U u) {
        Object p;
        p = (T) u;
        p = (T) null;
    }
}
