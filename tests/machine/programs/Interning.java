/** Equal literals and constant expressions are one object; strings that are made are others. */
class Interning {
    static final String CONSTANT = "ab";
    static class Other { static String text() { return "ab"; } static final String PART = "a"; }

    public static void main(String[] args) {
        String a = "ab";
        String b = "ab";
        String part = "a";
        Out.line(a == b);
        Out.line(a == CONSTANT);
        Out.line(a == Other.text());
        Out.line(a == "a" + "b");
        Out.line(a == Other.PART + 'b');
        Out.line("x1true" == "x" + 1 + true);
        Out.line(a == part + "b");
        Out.line(a.equals(part + "b"));
        Out.line(a == part.concat("b"));
        Out.line(a == new String(new char[] { 'a', 'b' }));
        Out.line(a == "xab".substring(1));
        Out.line(a == "ab".substring(0));
        Out.line("" == "");
        Out.line("" == new String(new char[0]));
        Out.line(a == a.toString());
        Out.line(a == a.concat(""));
        Out.line(a == String.valueOf((Object) a));
        for (int n = 0; n < 3; n++) {
            String again = "ab";
            Out.line(again == a);
        }
        Out.line("\u0000" == "\0");
        Out.line("caf\u00e9" == "café");
    }
}
