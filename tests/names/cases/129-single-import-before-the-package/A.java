package p;

import p.B.M;

class A {
    M field;
    int number = field.imported;
}
class B {
    static class M {
        int imported;
    }
}
