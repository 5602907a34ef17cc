class A {
    <T> void go(T t) { }
    void m() {
        this.<String, String>go("s");
    }
}
