class A {
    Object field = new Nope[1][];
}
