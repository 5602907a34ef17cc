class A {
    interface M { }
    interface M { }
}
class B extends B { }
