class A {
    static class B {
        private static class M { }
    }
    static class C extends B { }
    B.M first;
    C.M second;
}
