class B { A field; }
class A { }
class A { }
