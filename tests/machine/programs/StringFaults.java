class StringFaults {
    static void at(String s, int index) {
        try {
            Out.line(s.charAt(index));
        } catch (StringIndexOutOfBoundsException e) {
            Out.line("outside");
        }
    }

    static void part(String s, int from, int to) {
        try {
            Out.line(s.substring(from, to));
        } catch (StringIndexOutOfBoundsException e) {
            Out.line("outside");
        }
    }

    public static void main(String[] args) {
        int[] all = { -1, 0, 1, 2, 3, 2147483647, -2147483648 };
        for (int i : all) {
            at("ab", i);
            for (int j : all) {
                part("ab", i, j);
            }
            try {
                Out.line("ab".substring(i));
            } catch (IndexOutOfBoundsException e) {
                Out.line("outside");
            }
        }
        String none = args.length > 5 ? "x" : null;
        try {
            Out.line(none.length());
        } catch (NullPointerException e) {
            Out.line("null");
        }
        try {
            Out.line("a".concat(none));
        } catch (NullPointerException e) {
            Out.line("null");
        }
        try {
            Out.line("a".indexOf(none));
        } catch (NullPointerException e) {
            Out.line("null");
        }
        StringBuilder builder = new StringBuilder("xy");
        try {
            Out.line(builder.charAt(2));
        } catch (IndexOutOfBoundsException e) {
            Out.line("outside");
        }
    }
}
