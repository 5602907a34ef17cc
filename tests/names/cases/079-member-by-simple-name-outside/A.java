class A {
    static class M { }
}
class B {
    M field;
}
