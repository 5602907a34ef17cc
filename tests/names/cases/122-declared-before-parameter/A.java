class A<M> {
    static class M {
        int number;
    }
    M field;
    int number = field.number;
}
