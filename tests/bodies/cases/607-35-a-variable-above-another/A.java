class A<T, U extends T> {
    T m(boolean b, T t, U u, Object o) {
        T s = b ? t : t;
        o = b ? t : u;
        return b ? t : u;
    }
}
