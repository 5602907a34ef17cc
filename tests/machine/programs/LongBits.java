class LongBits {
    static final long[] VALUES = { 0, -1L, 0x0f0f0f0f0f0f0f0fL, 0x8000000000000000L, 0x00000000ffffffffL, 123456789012345L, -3L };

    public static void main(String[] args) {
        for (int i = 0; i < VALUES.length; i++) {
            long a = VALUES[i];
            Out.line("not", ~a);
            for (int j = 0; j < VALUES.length; j++) {
                long b = VALUES[j];
                Out.numbers(new long[] { a & b, a | b, a ^ b });
            }
        }
        long mask = 0;
        for (int bit = 0; bit < 64; bit += 5) {
            mask |= 1L << bit;
        }
        Out.line("mask", mask);
    }
}
