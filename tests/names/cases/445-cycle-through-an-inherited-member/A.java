class A extends B.M { }
class B extends C { }
class C {
    static class M extends D { }
}
class D extends A { }
