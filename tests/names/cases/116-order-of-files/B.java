class B {
    Nope field;
}
