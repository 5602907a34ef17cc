class A {
    static final int A = B;
    static final int B = 1;
}
