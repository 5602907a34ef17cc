class B {
    private int f;
}
class A {
    int m(B b) {
        return b.f;
    }
}
