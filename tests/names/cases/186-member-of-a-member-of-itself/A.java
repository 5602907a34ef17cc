class A implements A.B.C {
    static class B {
        interface C { }
    }
}
