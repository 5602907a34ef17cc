class A {
    void method(Missing one,
        String one) { }
}
