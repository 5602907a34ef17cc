package p.q;
class A { }
