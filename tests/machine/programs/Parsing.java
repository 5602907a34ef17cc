class Parsing {
    static void parse(String text) {
        try {
            Out.line(Integer.parseInt(text));
        } catch (NumberFormatException e) {
            Out.line("no int");
        }
        try {
            Out.line(Long.parseLong(text));
        } catch (NumberFormatException e) {
            Out.line("no long");
        }
    }

    public static void main(String[] args) {
        String[] all = { "0", "-0", "+5", "2147483647", "2147483648", "-2147483648", "-2147483649", "9223372036854775807", "9223372036854775808",
            "-9223372036854775808", "-9223372036854775809", "", "-", "+", "--1", " 1", "1 ", "1a", "0x10", "007", "12345678901234567890123", "\u0663\u0664", null, "1.0" };
        for (String text : all) {
            parse(text);
        }
        try {
            Integer.parseInt("9x");
        } catch (IllegalArgumentException e) {
            Out.line(e.getMessage());
        }
    }
}
