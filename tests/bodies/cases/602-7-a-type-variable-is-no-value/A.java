class A<T> {
    void m() {
        T.go();
    }
}
