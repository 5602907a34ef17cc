class A {
    final int f = 5;
    int m(A a, int b) {
        switch (b) {
            case f:
                return a.f;
            case a.f + 1:
        }
        return 0;
    }
}
