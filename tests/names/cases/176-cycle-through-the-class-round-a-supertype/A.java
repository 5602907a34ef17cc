class X { }
class A extends B.C { }
class B extends D {
    static class C { }
}
class D extends A { }
