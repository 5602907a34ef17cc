class A<T> {
    static void method() {
        T local;
    }
}
