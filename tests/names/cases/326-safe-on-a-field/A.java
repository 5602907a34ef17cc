class A {
    @SafeVarargs static final int NUMBER = 1;
}
