class A<T extends T> { }
