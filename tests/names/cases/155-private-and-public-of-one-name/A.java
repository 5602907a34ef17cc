class B {
    private static class M { }
}
interface I {
    class M { int inherited; }
}
class A extends B implements I {
    M field;
    int number = field.inherited;
}
