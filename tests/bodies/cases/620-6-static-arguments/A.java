class A {
    static int s;
    int f;
    static int go() {
        return 1;
    }
    A(int a) { }
    A(int a, A b) {
        this(a + s + go() + b.f + new A(1).f);
    }
    A() {
        this(1, new A(2));
    }
}
