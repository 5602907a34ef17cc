package p;

import p.q.A;

class A { }
class q { }
