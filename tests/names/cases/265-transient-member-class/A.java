class A {
    transient static class B { }
}
