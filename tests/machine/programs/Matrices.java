class Matrices {
    static long[][] times(long[][] a, long[][] b) {
        long[][] product = new long[a.length][b[0].length];
        for (int i = 0; i < a.length; i++) {
            for (int j = 0; j < b[0].length; j++) {
                for (int k = 0; k < b.length; k++) {
                    product[i][j] += a[i][k] * b[k][j];
                }
            }
        }
        return product;
    }

    public static void main(String[] args) {
        long[][] step = { { 1, 1 }, { 1, 0 } };
        long[][] power = { { 1, 0 }, { 0, 1 } };
        for (int n = 0; n < 95; n++) {
            power = times(power, step);
        }
        Out.numbers(power[0]);
        Out.numbers(power[1]);
        long[][] wide = { { 1, 2, 3 }, { -4, 5, -6 } };
        long[][] tall = { { 7, 8 }, { 9, -10 }, { 11, 12 } };
        for (long[] row : times(wide, tall)) {
            Out.numbers(row);
        }
    }
}
