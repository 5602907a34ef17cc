class A<T> {
    A<String>.M field;
    static class M { }
}
