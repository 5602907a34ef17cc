class A {
    static class M {
        int outer;
    }
    static class B {
        interface I {
            M field = null;
            int number = field.outer;
        }
    }
}
class M { }
