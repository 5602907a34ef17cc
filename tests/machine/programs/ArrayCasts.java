class ArrayCasts {
    static void cast(int kind, Object o) {
        try {
            switch (kind) {
                case 0: Out.line(((Object[]) o).length); break;
                case 1: Out.line(((String[]) o).length); break;
                case 2: Out.line(((int[]) o).length); break;
                case 3: Out.line(((int[][]) o).length); break;
                case 4: Out.line(((Comparable[]) o).length); break;
                case 5: Out.line(((byte[]) o).length); break;
                default: Out.line(((boolean[]) o).length); break;
            }
        } catch (ClassCastException e) {
            Out.line("no", kind);
        } catch (NullPointerException e) {
            Out.line("null", kind);
        }
    }

    public static void main(String[] args) {
        Object[] all = { new Object[1], new String[2], new int[3], new int[4][1], new Integer[5], new byte[6], new boolean[7], null, "text" };
        for (Object o : all) {
            for (int kind = 0; kind < 7; kind++) {
                cast(kind, o);
            }
        }
    }
}
