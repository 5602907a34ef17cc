interface One<T> { }
class A implements One<String>, One<Integer> { }
