package p;

import p.A.M;
import p.A.M.N;

class A extends B {
    static class M {
        static class N { }
    }
    N field;
}
class B {
    M first;
    N second;
}
