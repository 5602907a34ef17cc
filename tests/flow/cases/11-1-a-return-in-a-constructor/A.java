class A {
    final int f;
    A(boolean b) {
        if (b) return;
        f = 1;
    }
}
