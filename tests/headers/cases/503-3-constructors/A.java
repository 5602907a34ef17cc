class A {
    A(String s) { }
    A(String t) { }
}
