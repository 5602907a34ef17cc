class A {
    final int f;
    A(A o) {
        f = 1;
        o.f = 2;
    }
}
