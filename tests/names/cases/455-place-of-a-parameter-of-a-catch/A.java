class A {
    void method() {
        try {
        } catch (
            static
            RuntimeException
            caught) { }
    }
}
