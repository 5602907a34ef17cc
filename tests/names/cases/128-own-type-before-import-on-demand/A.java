package p;

import p.B.*;

class A {
    M field;
    int number = field.own;
}
class M {
    int own;
}
class B {
    static class M { }
}
