package p;

import p.A.M;
import p.A.N;
class A { static class M { } }
class M { }
