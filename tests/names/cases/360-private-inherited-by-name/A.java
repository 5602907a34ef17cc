class B {
    private static class M { }
}
class C extends B { }
class A {
    C.M field;
}
