final class B { }
class A extends B { }
