class A {
    static class some { }
    some.where.A field;
}
