/** What Object.toString says of arrays and objects, up to the number of the identity hash, which is told by hashCode. */
class ArrayNames {
    static class Low { }

    static String hexadecimal(int number) {
        String text = "";
        int rest = number;
        do {
            text = "0123456789abcdef".charAt(rest & 15) + text;
            rest >>>= 4;
        } while (rest != 0);
        return text;
    }

    static void show(Object o, String name) {
        Out.line(o.toString().equals(name + "@" + hexadecimal(o.hashCode())));
    }

    public static void main(String[] args) {
        show(new Object(), "java.lang.Object");
        show(new Low(), "ArrayNames$Low");
        show(new boolean[1], "[Z");
        show(new byte[1], "[B");
        show(new char[1], "[C");
        show(new short[1], "[S");
        show(new int[1], "[I");
        show(new long[1][2], "[[J");
        show(new long[1][2][0], "[J");
        show(new Low[1], "[LArrayNames$Low;");
        show(new String[0][0][0], "[[[Ljava.lang.String;");
        show(args, "[Ljava.lang.String;");
        show(new Object[] { args }, "[Ljava.lang.Object;");
        show(new Comparable<?>[2], "[Ljava.lang.Comparable;");
    }
}
