class A {
    void method() {
        for (Nope one = null; one != null; ) { }
    }
}
