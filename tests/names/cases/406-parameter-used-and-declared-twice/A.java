class A {
    <U extends T,
        T,
        T> void method() { }
}
