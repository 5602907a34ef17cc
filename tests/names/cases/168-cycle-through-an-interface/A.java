class A implements A.I {
    interface I { }
}
