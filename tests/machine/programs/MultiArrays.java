/** Arrays of arrays, even, jagged and open. */
class MultiArrays {
    public static void main(String[] args) {
        int[][] grid = new int[3][4];
        for (int i = 0; i < 3; i++) {
            for (int j = 0; j < 4; j++) {
                grid[i][j] = i * 10 + j;
            }
        }
        int[] row = grid[1];
        grid[1] = grid[2];
        grid[2] = row;
        grid[2][3]++;
        long sum = 0;
        for (int[] line : grid) {
            for (int one : line) {
                sum = sum * 7 + one;
            }
        }
        Out.line(sum);
        Out.line(grid[0] == grid[1]);
        long[][][] cube = new long[2][3][4];
        cube[1][2][3] = 1L << 50;
        Out.line(cube[1][2][3] + cube[0][2][3]);
        Out.line(cube[0][0] != cube[0][1]);
        String[][][] open = new String[2][3][];
        Out.line(open[1][2] == null);
        open[1][2] = new String[] { "x" };
        Out.line(open[1][2][0]);
        int[][] jagged = { { 1 }, { 2, 3 }, { }, { 4, 5, 6 }, null };
        for (int[] line : jagged) {
            Out.line(line == null ? -1 : line.length);
        }
        Object[] shared = new Object[2];
        shared[0] = shared;
        shared[1] = new Object[][] { shared };
        Out.line(((Object[][]) shared[1])[0] == shared);
        char[][] words = { { 'a', 'b' }, { 'c' } };
        Out.line(words[0][1] + words[1][0]);
        byte[][][][] deep = new byte[1][1][1][1];
        deep[0][0][0][0] = -1;
        Out.line(deep[0][0][0][0]);
    }
}
