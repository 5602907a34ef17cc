class X { }
class A extends B { }
