class A {
    static class B {
        private static class M { }
    }
    static class C extends B {
        M field;
    }
}
