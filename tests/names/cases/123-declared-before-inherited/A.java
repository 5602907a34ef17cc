class A extends B {
    static class M {
        int own;
    }
    M field;
    int number = field.own;
}
class B {
    static class M { }
}
