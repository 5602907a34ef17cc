class A {
    void method() {
        try {
        } finally {
            Nope local;
        }
    }
}
