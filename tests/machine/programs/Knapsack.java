class Knapsack {
    public static void main(String[] args) {
        int[] weights = { 12, 7, 11, 8, 9, 6, 20, 3, 15 };
        long[] values = { 24, 13, 23, 15, 16, 11, 38, 5, 27 };
        long[][] best = new long[weights.length + 1][51];
        for (int i = 1; i <= weights.length; i++) {
            for (int room = 0; room <= 50; room++) {
                best[i][room] = best[i - 1][room];
                if (weights[i - 1] <= room) {
                    best[i][room] = Math.max(best[i][room], best[i - 1][room - weights[i - 1]] + values[i - 1]);
                }
            }
        }
        Out.line(best[weights.length][50]);
        int[][] lcs = new int[20][20];
        String a = "interpreted machine";
        String b = "instruction tables";
        for (int i = 1; i <= a.length(); i++) {
            for (int j = 1; j <= b.length(); j++) {
                lcs[i][j] = a.charAt(i - 1) == b.charAt(j - 1) ? lcs[i - 1][j - 1] + 1 : Math.max(lcs[i - 1][j], lcs[i][j - 1]);
            }
        }
        Out.line(lcs[a.length()][b.length()]);
    }
}
