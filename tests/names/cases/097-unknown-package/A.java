class A {
    some.where.A field;
}
