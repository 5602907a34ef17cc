class ArrayDefaults {
    public static void main(String[] args) {
        Out.line(new boolean[3][2][1].length);
        Out.line(new int[2].length);
        byte[] b = new byte[1];
        char[] c = new char[1];
        short[] s = new short[1];
        int[] i = new int[1];
        long[] l = new long[1];
        String[] t = new String[1];
        int[][] g = new int[1][];
        Out.numbers(new long[] { b[0], c[0], s[0], i[0], l[0] });
        Out.line(t[0] == null);
        Out.line(g[0] == null);
        Out.line(new int[0].length);
        Out.line(new String[0][5].length);
    }
}
