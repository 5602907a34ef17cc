class A {
    @SafeVarargs A(int number) { }
}
