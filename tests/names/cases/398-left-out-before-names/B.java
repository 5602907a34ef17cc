class B {
    class C { }
}
