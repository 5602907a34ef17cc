package p;

import B;

class A { }
class B { }
