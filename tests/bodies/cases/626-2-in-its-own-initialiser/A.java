class A {
    static int a = 1 + a;
}
