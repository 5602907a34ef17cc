package p.q;
class Y { }

class X<T> { }
