package some.where;

class A {
    some.A field;
}
