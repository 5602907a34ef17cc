class A<T> {
    static <U> void give() { }
    void first() { A.<T>give(); }
    static void second() { A.<T>give(); }
}
