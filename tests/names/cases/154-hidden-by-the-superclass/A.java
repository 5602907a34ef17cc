class C {
    static class M { }
}
class B extends C {
    static class M { int hiding; }
}
class A extends B {
    M field;
    int number = field.hiding;
}
