class A<T, U, T> { }
