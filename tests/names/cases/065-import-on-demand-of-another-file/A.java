class A {
    Set<B> set;
}
