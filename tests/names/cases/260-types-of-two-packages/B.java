package q;
class A { }
