class A<M extends Number> extends B {
    M field;
    int number() {
        return field.intValue();
    }
}
class B {
    static class M { }
}
