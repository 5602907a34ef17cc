class A {
    A(int number) { }
    final A() { }
}
