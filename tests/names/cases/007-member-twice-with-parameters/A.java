interface A {
    class M<T> { }
    class M<T, U> { }
}
