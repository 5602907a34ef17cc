class A<T> {
    <U> void first() { }
    <U, V extends U, U> void second() { }
}
