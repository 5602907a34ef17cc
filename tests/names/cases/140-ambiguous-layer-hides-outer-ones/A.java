class A {
    interface I {
        interface M { }
    }
    interface J {
        interface M { }
    }
    static class B implements I, J { M field; }
    interface M { }
}
