class A {
    M field;
}
class B extends A {
    static class M { }
}
