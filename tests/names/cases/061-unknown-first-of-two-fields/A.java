class A {
    A known;
    Nope first; Nope second;
    Nope third;
}
