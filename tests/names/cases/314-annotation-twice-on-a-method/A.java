class A {
    @Deprecated public @SuppressWarnings("all") @Deprecated void method() { }
}
