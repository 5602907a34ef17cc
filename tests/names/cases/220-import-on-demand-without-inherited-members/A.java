package p;

import p.A.*;

class C {
    M field;
}
class A extends B { }
class B {
    static class M { }
}
