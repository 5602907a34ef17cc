class A {
    static class M { }
    static class C extends B {
        M field;
        int number = field.inherited;
    }
}
class B {
    static class M {
        int inherited;
    }
}
