interface I { }
class B { }
class A implements I, B { }
