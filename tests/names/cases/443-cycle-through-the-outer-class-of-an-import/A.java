package p;

import p.A.C;

class B extends C { }
class A extends B {
    static class C { }
}
