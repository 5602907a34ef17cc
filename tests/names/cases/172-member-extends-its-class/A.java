class A {
    static class B extends A { }
    static class C extends A.B implements I { }
    interface I { }
}
