interface I { }
class A extends I { }
class B extends B { }
