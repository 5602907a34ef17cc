/** Every size of constant. */
class Constants {
    static void line(int a) { Out.line(a); }
    static void line(long a) { Out.line("long", a); }

    public static void main(String[] args) {
        line(-1); line(0); line(1); line(2); line(3); line(4); line(5); line(6); line(-2);
        line(127); line(-128); line(128); line(-129); line(32767); line(-32768); line(32768); line(-32769);
        line(2147483647); line(-2147483648); line(0x7f); line(0xff); line(0777); line(0b1010_1010);
        line(0L); line(1L); line(2L); line(-1L); line(4294967296L); line(0x8000000000000000L); line(9223372036854775807L);
        line('a'); line('\0'); line('\uffff'); line('\'');
        Out.line(true); Out.line(false);
        Out.line("text"); Out.line("");
        Object none = null;
        Out.line(none == null);
    }
}
