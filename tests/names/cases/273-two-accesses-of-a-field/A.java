class A {
    public private int number;
}
