import B;
class A { }
