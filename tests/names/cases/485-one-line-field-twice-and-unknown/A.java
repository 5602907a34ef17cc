class A {
    int first, first; Nope second;
}
