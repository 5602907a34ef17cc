class A {
    B.M field;
}
