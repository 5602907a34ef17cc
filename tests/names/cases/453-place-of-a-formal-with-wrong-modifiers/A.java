class A {
    void method(
        int first,
        static
        int
        second) { }
}
