interface One<T> { }
class A implements One<Integer> { }
class B extends A implements One<Integer> { }
