class A {
    static class A { }
}
