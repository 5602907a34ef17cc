class A {
    M field;
    interface M { }
    interface M { }
}
