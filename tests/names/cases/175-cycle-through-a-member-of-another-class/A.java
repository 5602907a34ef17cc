class A extends B.C { }
class B extends A {
    static class C { }
}
