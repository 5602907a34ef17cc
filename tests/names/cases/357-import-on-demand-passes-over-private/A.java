package p;

import p.B.*;

class A {
    M field;
}
class B {
    private static class M { }
}
