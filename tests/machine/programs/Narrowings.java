/** i2b and i2s extend the sign, i2c doesn't, and l2i keeps the low half. */
class Narrowings {
    static final int[] INTS = { 0, 1, -1, 127, 128, 255, 256, -128, -129, 32767, 32768, 65535, 65536, -32769, 2147483647, -2147483648 };
    static final long[] LONGS = { 0, -1, 2147483647L, 2147483648L, 4294967295L, 4294967296L, -2147483649L, 9223372036854775807L, -9223372036854775808L };

    public static void main(String[] args) {
        for (int i = 0; i < INTS.length; i++) {
            int a = INTS[i];
            Out.numbers(new long[] { a, (byte) a, (short) a, (char) a, (byte) (char) a, (char) (byte) a, (short) (char) a });
        }
        for (int i = 0; i < LONGS.length; i++) {
            long a = LONGS[i];
            Out.numbers(new long[] { a, (int) a, (byte) a, (short) a, (char) a });
        }
    }
}
