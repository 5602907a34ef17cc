package p;

import p.A.M;

class A {
    static class M { }
}
class M { }
