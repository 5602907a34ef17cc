class A extends A.B {
    static class B { }
}
