class A {
    int number;
    int
        number;
    Nope other;
}
