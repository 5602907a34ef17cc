class A {
    int a = 1L;
}
