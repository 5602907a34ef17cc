interface I {
    class M { }
}
interface J {
    class M { }
}
class B implements I, J {
    static class M { }
}
class A extends B {
    M field;
}
