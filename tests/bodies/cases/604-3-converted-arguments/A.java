class A {
    void go(long a) { }
    void box(Object o) { }
    void all(String s, Object... more) { }
    void m() {
        go('c');
        box(1);
        all("s");
        all("s", 1, null, 'c');
        all("s", new Object[0]);
    }
}
