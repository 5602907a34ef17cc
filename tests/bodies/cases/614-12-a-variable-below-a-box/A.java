class A<T extends Integer> {
    void m(T t) {
        int i = t + t;
        switch (t) {
            default:
        }
    }
}
