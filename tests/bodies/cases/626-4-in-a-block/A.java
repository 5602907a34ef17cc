class A {
    static {
        a = 1;
        int b = a;
    }
    static int a;
}
