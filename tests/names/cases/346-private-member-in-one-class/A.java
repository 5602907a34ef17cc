class A {
    private static class M { }
    static class B {
        private interface I {
            class D { }
        }
        A.M first;
        M second;
    }
    B.I third;
    static class C extends M implements B.I { }
    interface E {
        A.B.I.D FIRST = null;
    }
}
