class A {
    @SuppressWarnings("one") @SuppressWarnings("two") int number;
}
