@SuppressWarnings((Nope) "unchecked")
class A { }
