class A {
    protected public void method() { }
}
