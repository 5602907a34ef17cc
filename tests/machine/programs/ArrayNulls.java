/** Each access of no array throws, and the null is seen before the index. */
class ArrayNulls {
    static int access(int kind, int at) {
        boolean[] z = null;
        byte[] b = null;
        char[] c = null;
        short[] s = null;
        int[] i = null;
        long[] l = null;
        Object[] o = null;
        switch (kind) {
            case 0: z[at] = true; return 1;
            case 1: return z[at] ? 1 : 2;
            case 2: b[at] = 1; return 1;
            case 3: return b[at];
            case 4: c[at] = 1; return 1;
            case 5: return c[at];
            case 6: s[at] = 1; return 1;
            case 7: return s[at];
            case 8: i[at] = 1; return 1;
            case 9: return i[at];
            case 10: l[at] = 1; return 1;
            case 11: return (int) l[at];
            case 12: o[at] = "text"; return 1;
            case 13: return o[at] == null ? 5 : 6;
            case 14: return o.length;
            case 15: return i.length;
            case 16: for (int n : i) { Out.line(n); } return 0;
            default: i[at]++; return 1;
        }
    }

    public static void main(String[] args) {
        int[] indices = { 0, -1, 5 };
        for (int kind = 0; kind < 18; kind++) {
            for (int at : indices) {
                try {
                    Out.line(access(kind, at));
                } catch (NullPointerException e) {
                    Out.line("null", kind);
                } catch (IndexOutOfBoundsException e) {
                    Out.line("range", kind);
                }
            }
        }
    }
}
