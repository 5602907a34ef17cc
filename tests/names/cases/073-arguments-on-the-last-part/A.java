class A<T> {
    java.util.Map.Entry<T, A<T>> field;
    A.M<T> own;
    static class M<U> { }
}
