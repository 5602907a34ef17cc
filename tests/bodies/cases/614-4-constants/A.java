class A {
    static final int S = 3;
    final int f = S + 1;
    static class B {
        static final char C = 'c';
    }
    void m(Byte a, char b, int c) {
        final short l = 9;
        switch (a) {
            case 1:
            case -128:
        }
        switch (b) {
            case B.C:
            default:
            case (char) 65:
            case true ? 66 : 'x':
        }
        switch (c) {
            case S:
            case f:
            case A.S + 2:
            case l:
            case ("a" + 1 == "a1" ? 100 : 101):
        }
    }
}
