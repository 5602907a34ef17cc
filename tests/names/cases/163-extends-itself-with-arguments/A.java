class B { }
class A<T> extends A<A<T>> { }
