class A<T, T extends Nope> { }
