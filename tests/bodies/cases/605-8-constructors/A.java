class A {
    A(String s, Object o) { }
    A(Object o, String s) { }
    static Object m() {
        return new A("a", "b");
    }
}
