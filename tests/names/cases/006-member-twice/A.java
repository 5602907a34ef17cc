class A {
    static class M { }
    interface M { }
}
