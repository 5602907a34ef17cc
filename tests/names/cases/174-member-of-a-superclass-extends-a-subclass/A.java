class A extends B { }
class B {
    static class C extends A { }
}
