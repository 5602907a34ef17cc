class A extends B {
    M field;
}
