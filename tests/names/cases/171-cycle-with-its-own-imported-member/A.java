package p;

import p.A.B;

class A extends B {
    static class B { }
}
