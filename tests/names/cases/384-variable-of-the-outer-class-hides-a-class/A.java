class A {
    static class T { }
    static class B<T> {
        static class C {
            T field;
        }
    }
}
