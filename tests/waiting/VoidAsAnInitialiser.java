class Main {
    static void v() { }
    void f() {
        Object o = v();
    }
}
