class A {
    void method(Iterable<String> all) {
        for (Nope one : all) { }
    }
}
