class A {
    Long a = 1;
}
