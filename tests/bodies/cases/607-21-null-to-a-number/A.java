class A {
    int a = null;
}
