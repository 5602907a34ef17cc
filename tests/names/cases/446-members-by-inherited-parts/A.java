class A extends X { }
class X {
    static class B extends Y { }
}
class Y {
    static class C extends A { }
}
class Z extends A.B.C {
    A.B.C field;
    B.C other;
}
