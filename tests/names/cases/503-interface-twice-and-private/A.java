class B {
    private interface I { }
}
class A implements B.I,
    B.I { }
