class A {
    A known;
    static Nope[] field;
}
