class A {
    void method() {
        try {
        } catch (Nope caught) { }
    }
}
