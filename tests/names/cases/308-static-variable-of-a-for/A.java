class A {
    void method() {
        for (static int at = 0; at < 3; at++) { }
    }
}
