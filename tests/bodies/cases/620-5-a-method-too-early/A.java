class B {
    B(int a) { }
    int go() {
        return 1;
    }
}
class A extends B {
    A(A a) {
        super(a.go());
    }
    A() {
        super(go());
    }
}
