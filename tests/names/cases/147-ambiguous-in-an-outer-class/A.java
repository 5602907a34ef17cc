interface I {
    class M { }
}
interface J {
    class M { }
}
class A implements I, J {
    static class B {
        M field;
    }
}
