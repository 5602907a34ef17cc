class A {
    Object field = new Nope(1, 2);
}
