package p;

import B.M;

class A { }
class B { static class M { } }
