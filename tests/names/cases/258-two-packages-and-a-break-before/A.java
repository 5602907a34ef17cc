package p;
class A extends Nope { }
