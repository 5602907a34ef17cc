class A {
    <T> void go(T t) { }
    void m() {
        this.<int>go(1);
    }
}
