class B {
    int f;
}
class A {
    int m(B b) {
        return b.g;
    }
}
