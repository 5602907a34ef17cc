class A {
    @Override int number;
}
