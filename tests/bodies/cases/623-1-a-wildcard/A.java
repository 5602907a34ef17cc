class A {
    <T> void go(T t) { }
    void m() {
        this.<?>go("s");
    }
}
