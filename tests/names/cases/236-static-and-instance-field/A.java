class A {
    static int number;
    void number() { }
    private final int number = 0;
}
