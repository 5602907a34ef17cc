class A {
    static class B {
        interface C {
            class D { }
            class D { }
        }
    }
}
