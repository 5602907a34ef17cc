class A {
    A(public int first) { }
}
