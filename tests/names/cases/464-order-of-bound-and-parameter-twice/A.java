class A<T extends
    Nope,
    T> { }
