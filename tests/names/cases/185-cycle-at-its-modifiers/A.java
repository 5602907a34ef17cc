class X { }
abstract
class A extends A { }
