class A {
    void m(int a) {
        final int b = 1;
        final int c = a;
        switch (a) {
            case b:
                break;
            case c:
        }
    }
}
