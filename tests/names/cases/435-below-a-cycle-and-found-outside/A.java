class A extends B {
    M field;
}
class M { }
