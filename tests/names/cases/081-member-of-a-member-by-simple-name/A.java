class A {
    static class B {
        static class M { }
    }
    M field;
}
