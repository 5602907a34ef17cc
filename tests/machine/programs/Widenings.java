class Widenings {
    static long wide(long value) { return value; }
    static int whole(int value) { return value; }

    public static void main(String[] args) {
        byte b = -5;
        short s = -300;
        char c = '\uffff';
        int i = -2147483648;
        Out.line(wide(b));
        Out.line(wide(s));
        Out.line(wide(c));
        Out.line(wide(i));
        Out.line(whole(b) + whole(s) + whole(c));
        long sum = b;
        sum += s;
        sum += c;
        sum += i;
        Out.line(sum);
        Out.line(i * 2L);
        Out.line(i + i);
        Out.line((long) i + i);
        Out.line(b * c);
        Out.line(c * c);
        Out.line(c * (long) c);
    }
}
