class B {
    B(int a) { }
}
class A extends B {
    A() { }
}
