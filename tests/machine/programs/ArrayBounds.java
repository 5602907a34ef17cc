/** An index below zero or at least the length throws, at each type, in reads and in writes. */
class ArrayBounds {
    static final int[] INDICES = { -1, 0, 2, 3, 4, 2147483647, -2147483648 };

    static int access(int kind, int at) {
        boolean[] z = new boolean[3];
        byte[] b = new byte[3];
        char[] c = new char[3];
        short[] s = new short[3];
        int[] i = new int[3];
        long[] l = new long[3];
        Object[] o = new Object[3];
        switch (kind) {
            case 0: z[at] = true; return 1;
            case 1: return z[at] ? 1 : 2;
            case 2: b[at] = 1; return 1;
            case 3: return b[at];
            case 4: c[at] = 1; return 1;
            case 5: return c[at];
            case 6: s[at] = 1; return 1;
            case 7: return s[at];
            case 8: i[at] = 1; return 1;
            case 9: return i[at];
            case 10: l[at] = 1; return 1;
            case 11: return (int) l[at];
            case 12: o[at] = o; return 1;
            case 13: return o[at] == null ? 5 : 6;
            case 14: i[at]++; return i[at];
            default: l[at] += 3; return (int) l[at];
        }
    }

    public static void main(String[] args) {
        for (int kind = 0; kind < 16; kind++) {
            for (int at : INDICES) {
                try {
                    Out.line(access(kind, at));
                } catch (ArrayIndexOutOfBoundsException e) {
                    Out.line("outside", at);
                }
            }
        }
        try {
            int[][] none = new int[0][3]; Out.line(none[0].length);
        } catch (IndexOutOfBoundsException e) {
            Out.line("none in an empty one");
        }
        try {
            int[] none = new int[0];
            none[0] = 1;
        } catch (ArrayIndexOutOfBoundsException e) {
            Out.line("none");
        }
    }
}
