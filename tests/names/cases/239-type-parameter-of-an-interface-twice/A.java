interface A<
    T,
    T> { }
