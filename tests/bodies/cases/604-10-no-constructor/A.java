class B {
    B(int a) { }
}
class A {
    Object m() {
        return new B("s");
    }
}
