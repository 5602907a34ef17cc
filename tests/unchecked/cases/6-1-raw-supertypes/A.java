interface I<T> { }
class Box<T> { }
class A extends Box { }
class B extends Box<String> implements I { }
interface J extends I { }
