class StringCompare {
    public static void main(String[] args) {
        String[] all = { "", "a", "ab", "b", "B", "abc", "\uffff", "\u00e9", "a\u0000" };
        for (String a : all) {
            for (String b : all) {
                Out.put(a.compareTo(b));
                Out.put(" ");
                Out.put(a.equals(b) ? 1 : 0);
                Out.put(" ");
            }
            Out.line();
            Out.line(a.hashCode());
        }
        Out.line("The quick brown fox jumps over the lazy dog".hashCode());
        Out.line("Aa".hashCode() == "BB".hashCode());
        try {
            Out.line("a".compareTo(null));
        } catch (NullPointerException e) {
            Out.line("null");
        }
    }
}
