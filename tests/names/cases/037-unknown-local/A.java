class A {
    void method() {
        Nope local;
    }
}
