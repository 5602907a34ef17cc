class StringBuilders {
    public static void main(String[] args) {
        StringBuilder b = new StringBuilder();
        b.append(1).append(' ').append(2L).append(true).append((Object) null).append((String) null).append("text").append(new StringBuilder("in").toString());
        Out.line(b.toString());
        Out.line(b.length());
        Out.line(b.charAt(4));
        for (int n = 0; n < 500; n++) {
            b.append((char) ('a' + n % 26));
        }
        String s = b.toString();
        Out.line(s.length());
        Out.line(s.substring(s.length() - 30));
        Out.line(s == b.toString());
        Out.line(s.equals(b.toString()));
        StringBuilder turned = new StringBuilder("");
        for (int at = 9; at >= 0; at--) {
            turned.append(s.charAt(at));
        }
        Out.line(turned.toString());
    }
}
