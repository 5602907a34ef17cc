/** A shift of an int goes by the low five bits of the count, which may be an int or a long. */
class IntShifts {
    static final int[] VALUES = { 1, -1, 123456789, -123456789, 2147483647, -2147483648 };

    public static void main(String[] args) {
        for (int i = 0; i < VALUES.length; i++) {
            int a = VALUES[i];
            for (int by = -33; by <= 66; by += 3) {
                Out.numbers(new long[] { a, by, a << by, a >> by, a >>> by });
            }
            long far = 4294967296L + 31;
            Out.numbers(new long[] { a << far, a >> far, a >>> far });
        }
    }
}
