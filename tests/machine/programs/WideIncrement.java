/** Steps that don't fit one byte. */
class WideIncrement {
    public static void main(String[] args) {
        int i = 0;
        i += 127; Out.line(i);
        i += 128; Out.line(i);
        i -= 128; Out.line(i);
        i -= 129; Out.line(i);
        i += 32767; Out.line(i);
        i -= 32768; Out.line(i);
        i += 32768; Out.line(i);
        i = 2147483647;
        i += 30000; Out.line(i);
        i -= 30001; Out.line(i);
    }
}
