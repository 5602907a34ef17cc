/** A compound assignment casts back to the variable's type and takes its place once. */
class CompoundAssignments {
    static int calls;
    static byte[] bytes = { 100, -100 };
    static char letter = 'a';
    short held = 30000;
    long far = 1L << 40;

    static int next() { return calls++; }

    public static void main(String[] args) {
        byte b = 127; b += 1; Out.line(b);
        b -= 300; Out.line(b);
        short s = 32767; s *= 3; Out.line(s);
        char c = 'z'; c += 65500; Out.line(c);
        c >>= 2; Out.line(c);
        int i = 7; i /= 2; Out.line(i);
        i <<= 33; Out.line(i);
        i -= 10000000000L; Out.line(i);
        i ^= -1; Out.line(i);
        i >>>= 5; Out.line(i);
        i %= 1000; Out.line(i);
        long l = 5; l *= -7; Out.line(l);
        l <<= 60; Out.line(l);
        l >>= 3; Out.line(l);
        l >>>= 1; Out.line(l);
        l |= 1; Out.line(l);
        l &= ~0xffL; Out.line(l);
        bytes[next()] += 100; Out.line(bytes[0]);
        bytes[next()] >>>= 1; Out.line(bytes[1]);
        Out.line("calls", calls);
        letter += 1; Out.line(letter);
        CompoundAssignments one = new CompoundAssignments();
        one.held += 10000; Out.line(one.held);
        one.far ^= 255; Out.line(one.far);
        long[] longs = { 3, 4 };
        longs[next() - 2] *= longs[1] += 2;
        Out.numbers(longs);
        boolean t = true; t &= false; Out.line(t);
        t |= true; Out.line(t);
        t ^= true; Out.line(t);
        int a = 1; a += a++ + ++a; Out.line(a);
        int k = 5; k = k-- - --k; Out.line(k);
    }
}
