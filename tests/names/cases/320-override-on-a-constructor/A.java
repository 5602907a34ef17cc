class A {
    @Override public A() { }
}
