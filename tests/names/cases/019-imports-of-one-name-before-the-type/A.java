package p;

import p.A.M;
import p.B.M;

class A {
    static class M { }
}
class B {
    static class M { }
}
