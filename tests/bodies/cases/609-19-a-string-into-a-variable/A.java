class A<T> {
    void m(T t) {
        t += "a";
    }
}
