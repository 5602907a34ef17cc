class A {
    void m(byte a, Byte b, Integer i, Long l, boolean c, Boolean d) {
        a += 1L;
        i <<= 1L;
        l += 1;
        d &= c;
        c |= d;
        b += 1;
    }
}
