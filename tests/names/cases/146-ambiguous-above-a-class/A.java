interface I {
    class M { }
}
interface J {
    class M { }
}
class B implements I, J { }
class A extends B {
    M field;
}
