class Life {
    static boolean[][] step(boolean[][] now) {
        int size = now.length;
        boolean[][] next = new boolean[size][size];
        for (int i = 0; i < size; i++) {
            for (int j = 0; j < size; j++) {
                int around = 0;
                for (int di = -1; di <= 1; di++) {
                    for (int dj = -1; dj <= 1; dj++) {
                        if ((di != 0 || dj != 0) && now[(i + di + size) % size][(j + dj + size) % size]) around++;
                    }
                }
                next[i][j] = around == 3 || now[i][j] & around == 2;
            }
        }
        return next;
    }

    public static void main(String[] args) {
        boolean[][] grid = new boolean[12][12];
        grid[0][1] = grid[1][2] = grid[2][0] = grid[2][1] = grid[2][2] = true;
        for (int n = 0; n < 20; n++) grid = step(grid);
        for (boolean[] row : grid) {
            for (boolean cell : row) System.out.write(cell ? '#' : '.');
            Out.line();
        }
    }
}
