class A {
    A<A> field;
}
