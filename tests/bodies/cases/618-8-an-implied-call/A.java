class B {
    private B() { }
}
class A extends B {
}
