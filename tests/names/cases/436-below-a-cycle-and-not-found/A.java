class A extends B {
    Nope field;
}
