class A {
    private protected static class B { }
}
