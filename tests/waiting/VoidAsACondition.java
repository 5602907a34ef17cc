class Main {
    static void v() { }
    void f() {
        if (v()) { }
    }
}
