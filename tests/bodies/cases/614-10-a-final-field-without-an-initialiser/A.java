class A {
    final int f;
    A() {
        f = 1;
    }
    void m(int a) {
        switch (a) {
            case f:
        }
    }
}
