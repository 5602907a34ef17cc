class A {
    int a = this.c + A.d + d + m();
    static int b = A.d;
    {
        c = 1;
        (c) = 2;
    }
    int m() {
        return c;
    }
    static class B {
        int e = d;
    }
    int c = 3;
    static int d = 4;
}
