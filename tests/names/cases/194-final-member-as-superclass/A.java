class B {
    static final class M { }
    M field;
}
class A extends B.M { }
