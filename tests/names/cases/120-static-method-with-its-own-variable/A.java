class A<T> {
    static <T> T same(T it) {
        T local = it;
        return local;
    }
}
