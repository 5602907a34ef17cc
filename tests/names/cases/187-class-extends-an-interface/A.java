interface I { }
class A extends I { }
