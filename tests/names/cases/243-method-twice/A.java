class A {
    void method(int number) { }
    int method(int other) { return other; }
}
