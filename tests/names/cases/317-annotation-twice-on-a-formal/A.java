class A {
    void method(int first, @Deprecated @Deprecated int number) { }
}
