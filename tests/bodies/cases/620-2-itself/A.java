class A {
    A() { }
    A(int a) {
        this();
    }
    A(String s) { this(s + s); }
}
