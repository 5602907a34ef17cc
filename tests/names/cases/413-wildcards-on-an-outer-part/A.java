class A<T> {
    static class M { }
    A<?>.M field;
}
