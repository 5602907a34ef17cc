class B {
    private void go() { }
}
class A {
    void m(B b) {
        b.go();
    }
}
