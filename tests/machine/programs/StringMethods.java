class StringMethods {
    public static void main(String[] args) {
        String s = "to be or not to be";
        Out.line(s.length());
        Out.line(s.charAt(3));
        Out.line(s.indexOf('b'));
        Out.line(s.indexOf('z'));
        Out.line(s.indexOf("or"));
        Out.line(s.indexOf("be"));
        Out.line(s.indexOf(""));
        Out.line(s.indexOf("not to be or"));
        Out.line(s.substring(9));
        Out.line(s.substring(3, 5));
        Out.line(s.substring(18).length());
        Out.line(s.startsWith("to"));
        Out.line(s.startsWith("be"));
        Out.line(s.startsWith(""));
        Out.line(s.endsWith("be"));
        Out.line(s.endsWith("to be or not to be!"));
        Out.line(s.isEmpty());
        Out.line("".isEmpty());
        Out.line(s.concat("!").concat(s));
        Out.line(s.toCharArray().length);
        Out.line("a\ud83d\ude00b".indexOf(0x1f600));
        Out.line("ab".indexOf(-1));
        Out.line("ab".indexOf(0x10000));
        Out.line(s.equals("to be or not to be"));
        Out.line(s.equals("to be or not to bE"));
        Out.line(s.equals(null));
        Out.line(s.equals(Integer.valueOf(3)));
        char[] from = { 'x', 'y' };
        String made = new String(from);
        from[0] = 'z';
        Out.line(made);
        char[] to = made.toCharArray();
        to[1] = 'q';
        Out.line(made);
    }
}
