class C {
    static class M { }
}
class B extends C {
    private static class M { }
}
class A extends B {
    A.M field;
}
