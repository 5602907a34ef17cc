class B {
    private static class C { }
    static C c;
    static C[] d;
    B(int i, C... c) { }
}
class A extends B {
    A() {
        super(1, d);
    }
    A(int i) {
        super(i, c);
    }
}
