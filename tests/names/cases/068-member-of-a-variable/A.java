class A<T extends B> {
    T.M field;
}
class B {
    static class M { }
}
