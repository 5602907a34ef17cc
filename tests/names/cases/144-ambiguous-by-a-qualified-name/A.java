interface I {
    class M { }
}
interface J {
    class M { }
}
interface K extends I, J { }
class A {
    K.M field;
}
