class A<T> {
    static class B {
        T field;
    }
}
