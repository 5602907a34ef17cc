interface I { }
class A<T extends I & Object> { }
