interface I {
    class M { }
}
interface J extends I { }
interface K extends I { }
class B implements J { }
class A extends B implements I, J, K {
    M field;
    A.M other = field;
    K.M third = other;
}
