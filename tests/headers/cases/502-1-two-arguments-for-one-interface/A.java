interface One<T> { }
class A implements One<String> { }
class B extends A implements One<Integer> { }
