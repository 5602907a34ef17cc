interface One<T> { }
class A implements One { }
class B extends A implements One<Integer> { }
