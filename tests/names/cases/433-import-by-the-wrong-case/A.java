package p;

import P.A;

class A { }
