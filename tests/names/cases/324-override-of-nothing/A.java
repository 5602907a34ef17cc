class A {
    @Override void method() { }
}
