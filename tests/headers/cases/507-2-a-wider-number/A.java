class A {
    int m() { return 0; }
}
class B extends A {
    long m() { return 0; }
}
