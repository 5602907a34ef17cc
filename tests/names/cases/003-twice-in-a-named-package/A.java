package p.q;
class X { }
