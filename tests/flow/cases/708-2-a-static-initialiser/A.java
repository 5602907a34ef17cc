class A {
    static {
        while (true) { }
    }
}
