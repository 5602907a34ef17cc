class X extends Exception { }
class Y extends X { }
class Z extends Exception { }
class B { B() throws X { } }
class A extends B { }
