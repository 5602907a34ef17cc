class A {
    static final int F;
    static {
        int x = 1;
    }
}
