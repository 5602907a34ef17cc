class Queens {
    static int solve(int n, int row, int[] columns) {
        if (row == n) return 1;
        int found = 0;
        next:
        for (int column = 0; column < n; column++) {
            for (int above = 0; above < row; above++) {
                int distance = columns[above] - column;
                if (distance == 0 || distance == row - above || distance == above - row) continue next;
            }
            columns[row] = column;
            found += solve(n, row + 1, columns);
        }
        return found;
    }

    public static void main(String[] args) {
        for (int n = 1; n <= 7; n++) {
            Out.line(solve(n, 0, new int[n]));
        }
    }
}
