package p;

import p.A.M;

class A extends B { }
class B {
    static class M { }
}
