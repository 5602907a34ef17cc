class B {
    private interface I { }
}
