class A {
    Object field = new Nope[] { null };
}
