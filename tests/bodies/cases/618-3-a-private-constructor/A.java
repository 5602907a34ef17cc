class B {
    private B() { }
}
class A {
    Object m() {
        return new B();
    }
}
