class A {
    void method(int one, String one,
        Missing two) { }
}
