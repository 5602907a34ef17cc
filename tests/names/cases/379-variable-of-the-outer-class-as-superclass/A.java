class A<T> {
    static class B extends T { }
}
