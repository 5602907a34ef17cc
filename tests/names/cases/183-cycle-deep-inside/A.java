class A {
    static class B { }
    interface C {
        class D extends E { }
        class E extends D { }
    }
}
