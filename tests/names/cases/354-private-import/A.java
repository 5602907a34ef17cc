package p;

import p.A.M;

class A {
    private static class M { }
}
