class A {
    int m(int a, long b, boolean c) {
        long d = a & b | 'x' ^ a;
        return a & c;
    }
}
