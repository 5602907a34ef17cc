class A {
    static final interface I { }
}
