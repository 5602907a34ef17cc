/** A shift of a long goes by the low six bits of the count. */
class LongShifts {
    static final long[] VALUES = { 1, -1, 81985529216486895L, -81985529216486895L, 9223372036854775807L, -9223372036854775808L };

    public static void main(String[] args) {
        for (int i = 0; i < VALUES.length; i++) {
            long a = VALUES[i];
            for (int by = -66; by <= 130; by += 7) {
                Out.numbers(new long[] { a, by, a << by, a >> by, a >>> by });
            }
            long far = 4294967296L + 63;
            Out.numbers(new long[] { a << far, a >> far, a >>> far });
        }
    }
}
