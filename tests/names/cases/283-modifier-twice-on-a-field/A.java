class A {
    static final static int NUMBER = 1;
}
