class IntBits {
    static final int[] VALUES = { 0, -1, 0x0f0f0f0f, 0x33cc33cc, 0x80000000, 0x7fffffff, 12345, -54321 };

    static int count(int bits) {
        int count = 0;
        for (int rest = bits; rest != 0; rest = rest & rest - 1) {
            count++;
        }
        return count;
    }

    static int reverse(int bits) {
        int turned = 0;
        for (int n = 0; n < 32; n++) {
            turned = turned << 1 | bits >>> n & 1;
        }
        return turned;
    }

    public static void main(String[] args) {
        for (int i = 0; i < VALUES.length; i++) {
            int a = VALUES[i];
            Out.numbers(new long[] { a, ~a, count(a), reverse(a) });
            for (int j = 0; j < VALUES.length; j++) {
                int b = VALUES[j];
                Out.numbers(new long[] { a & b, a | b, a ^ b });
            }
        }
    }
}
