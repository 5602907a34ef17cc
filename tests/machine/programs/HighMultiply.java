/** The high half of a product of longs, by quarters. */
class HighMultiply {
    static long high(long x, long y) {
        long x1 = x >> 32;
        long x2 = x & 0xffffffffL;
        long y1 = y >> 32;
        long y2 = y & 0xffffffffL;
        long z2 = x2 * y2;
        long t = x1 * y2 + (z2 >>> 32);
        long z1 = (t & 0xffffffffL) + x2 * y1;
        return x1 * y1 + (t >> 32) + (z1 >> 32);
    }

    static long gcd(long a, long b) {
        while (b != 0) {
            long rest = a % b;
            a = b;
            b = rest;
        }
        return a;
    }

    public static void main(String[] args) {
        Out.line(high(9223372036854775807L, 9223372036854775807L));
        Out.line(high(-9223372036854775808L, 9223372036854775807L));
        Out.line(high(-1, 1));
        Out.line(high(123456789012345678L, -987654321098765432L));
        Out.line(gcd(1071L * 4294967296L, 462L * 4294967296L));
    }
}
