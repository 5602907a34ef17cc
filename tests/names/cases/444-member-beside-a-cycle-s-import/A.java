package p;

import p.A.C;

class B extends C { }
class A {
    static class C { }
    static class D extends B { }
}
