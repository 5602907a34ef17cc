interface I {
    class M { }
}
interface J extends I {
    class M { }
}
class A implements I, J {
    M field;
}
