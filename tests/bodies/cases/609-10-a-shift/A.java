class A {
    int m(int a, long b, Byte c) {
        int d = a << b >> c >>> 'x';
        long e = b >>> a;
        return a << true;
    }
}
