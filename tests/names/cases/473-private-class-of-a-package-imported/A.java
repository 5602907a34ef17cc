package p;

import p.B;

class A { B field; }
