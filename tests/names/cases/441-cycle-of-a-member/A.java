class A {
    static class C { }
    static class B extends B { }
}
