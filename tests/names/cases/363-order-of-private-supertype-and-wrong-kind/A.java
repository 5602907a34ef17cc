class B {
    private interface I { }
}
class A extends B.I { }
