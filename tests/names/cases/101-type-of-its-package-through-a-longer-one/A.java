package some.where;

class A {
    some.where.there.A field;
}
