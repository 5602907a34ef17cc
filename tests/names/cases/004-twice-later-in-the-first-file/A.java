class X { }
class Y { }
class X { }
