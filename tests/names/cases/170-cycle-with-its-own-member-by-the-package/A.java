package p;

class A extends p.A.B {
    static class B { }
}
