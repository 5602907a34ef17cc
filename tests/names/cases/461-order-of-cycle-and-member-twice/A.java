class A extends A {
    interface M { }
    interface M { }
}
