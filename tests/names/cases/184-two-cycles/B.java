class D extends C { }
class B extends A { }
