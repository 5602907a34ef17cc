class A {
    public protected A() { }
}
