class A {
    void method() {
        try {
        } catch (NullPointerException
            | Nope caught) { }
    }
}
