class A {
    A(Nope... all) { }
}
