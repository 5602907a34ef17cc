package a.b;

class A {
    a.b.A field;
}
