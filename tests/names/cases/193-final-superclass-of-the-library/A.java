class X extends Exception { }
class A extends String { }
