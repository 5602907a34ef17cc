class A { }
abstract final class A { }
