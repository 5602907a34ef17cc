class A<T extends B> {
    B.M field;
    T other;
}
class B {
    static class M { }
}
