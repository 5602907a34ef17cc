class A {
    Nope field;
}
