class Main {
    static void v() { }
    void f() {
        String s = "a" + v();
    }
}
