interface I {
    int F = 1;
}
class B {
    int F;
}
class C extends B implements I {
}
class A {
    int m(C c) {
        return ((B) c).F + c.F;
    }
}
