class A {
    A(int one, A other,
        A[] one) { }
}
