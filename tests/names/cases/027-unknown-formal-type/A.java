interface A {
    void method(int first, Nope second);
}
