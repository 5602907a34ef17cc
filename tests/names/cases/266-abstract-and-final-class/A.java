class B { }
abstract final class A { }
