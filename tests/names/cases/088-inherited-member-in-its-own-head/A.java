class A extends C implements I { }
class C {
    interface I { }
}
