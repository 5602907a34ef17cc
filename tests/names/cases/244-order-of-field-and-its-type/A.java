class A {
    int number;
    Nope number;
}
