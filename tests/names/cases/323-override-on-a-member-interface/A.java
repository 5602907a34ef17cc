class A {
    @Override interface I { }
}
