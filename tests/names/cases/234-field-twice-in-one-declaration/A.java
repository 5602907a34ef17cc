class A {
    int first,
        second,
        first;
}
