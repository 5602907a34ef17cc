package p;

class p { }
class A {
    p.A field;
}
