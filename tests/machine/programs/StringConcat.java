/** Every type beside a string. */
class StringConcat {
    static class Named {
        public String toString() { return "named"; }
    }

    static class Silent {
        public String toString() { return null; }
    }

    public static void main(String[] args) {
        byte b = -1; short s = 300; char c = 'c'; int i = -2147483648; long l = -9223372036854775808L; boolean z = true;
        Object none = null;
        String noText = null;
        Out.line("" + b + s + c + i + l + z + none + noText);
        Out.line(1 + 2 + "3" + 4 + 5);
        Out.line('a' + 'b' + "c" + 'd' + 'e');
        Out.line("x" + new Named() + new Silent());
        String grown = "g";
        for (int n = 0; n < 20; n++) {
            grown += n;
        }
        Out.line(grown);
        noText += none;
        Out.line(noText);
        Object any = "o";
        any = any + "p";
        Out.line((String) any);
        String[] texts = { "q", null };
        int at = 0;
        texts[at++] += at;
        texts[at] += "r";
        Out.line(texts[0] + texts[1] + at);
        Out.line("" + Integer.valueOf(5) + Character.valueOf('k') + Boolean.valueOf(false) + Long.valueOf(-6));
        Out.line("tab\tquote\"slash\\oct\101\n");
    }
}
