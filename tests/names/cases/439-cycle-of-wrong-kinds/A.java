interface I
    extends A { }
class A
    extends I { }
