class A {
    void method(
        int first,
        final
        static
        int
        second) { }
}
