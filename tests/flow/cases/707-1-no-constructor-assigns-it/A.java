class A {
    final int f;
    A(boolean b) {
        if (b) f = 1;
    }
}
