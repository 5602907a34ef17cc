class A {
    private static class M { }
}
class B extends A {
    M field;
    int number = field.number;
}
class M {
    int number;
}
