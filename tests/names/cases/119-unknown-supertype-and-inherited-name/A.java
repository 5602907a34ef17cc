class A {
    B known;
}
