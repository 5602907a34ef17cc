class A {
    private static class M { }
}
class B extends A {
    M field;
}
