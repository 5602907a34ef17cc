class A {
    void go() { }
    static void m() {
        new A().go();
        go();
    }
}
