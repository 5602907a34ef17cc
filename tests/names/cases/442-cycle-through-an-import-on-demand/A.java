package p;

import p.A.*;

class A extends M {
    static class M { }
}
