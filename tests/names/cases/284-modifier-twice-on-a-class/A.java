class B { }
final final class A { }
