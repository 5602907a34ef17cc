class BigArray {
    public static void main(String[] args) {
        char[] letters = new char[200000];
        for (int at = 0; at < letters.length; at++) {
            letters[at] = (char) (at * 7);
        }
        int sum = 0;
        for (char letter : letters) {
            sum = sum * 17 + letter;
        }
        Out.line(sum);
        long[] longs = new long[100000];
        longs[99999] = -1;
        Out.line(longs[99998] + longs[99999]);
        byte[][] rows = new byte[1000][100];
        for (int at = 0; at < rows.length; at++) {
            rows[at][at % 100] = (byte) at;
        }
        Out.line(rows[555][55]);
        Out.line(rows[555][56]);
    }
}
