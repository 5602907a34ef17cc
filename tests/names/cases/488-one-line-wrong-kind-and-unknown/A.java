interface I { }
class A extends I { Nope field; }
