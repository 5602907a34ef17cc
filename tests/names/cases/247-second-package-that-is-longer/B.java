package p.q.r;
class B { }
