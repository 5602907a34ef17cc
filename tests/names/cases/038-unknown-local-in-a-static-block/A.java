class A {
    static {
        int known = 1;
        final Nope unknown = null;
    }
}
