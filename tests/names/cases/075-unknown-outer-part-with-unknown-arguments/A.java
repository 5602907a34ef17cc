class A {
    Nope<Never>.Entry<Neither> field;
}
