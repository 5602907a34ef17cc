/** One object per small value, and what the boxes tell. */
class Boxes {
    public static void main(String[] args) {
        int[] ints = { -129, -128, 0, 127, 128 };
        for (int n : ints) {
            Integer a = n;
            Integer b = n;
            Long c = (long) n;
            Long d = (long) n;
            Short e = (short) n;
            Short f = (short) n;
            Out.line(a == b);
            Out.line(c == d);
            Out.line(e == f);
            Out.line(a.equals(b) && c.equals(d) && e.equals(f));
            Out.line(a.equals(c));
            Out.line(a.hashCode() == n && e.hashCode() == n);
        }
        for (int n = -128; n < 128; n += 51) {
            Byte a = (byte) n;
            Byte b = (byte) n;
            Out.line(a == b);
        }
        char[] chars = { 0, 'a', 127, 128 };
        for (char n : chars) {
            Character a = n;
            Character b = n;
            Out.line(a == b);
            Out.line(a.equals(b));
        }
        Boolean t = true;
        Boolean u = !false;
        Out.line(t == u);
        Out.line(t.hashCode() + Boolean.valueOf(false).hashCode());
        Out.line(Long.valueOf(1L << 40).hashCode());
        Out.line(Long.valueOf(-1).hashCode());
        Integer i = 5;
        i++;
        i += 10;
        Out.line(i);
        int plain = i + Integer.valueOf(4) * 2;
        Out.line(plain);
        Integer old = i++;
        Out.line(old < i);
        Out.line(old.compareTo(i));
        Out.line(Long.valueOf(3).compareTo(2L));
        Out.line(Byte.valueOf((byte) 3).compareTo((byte) -3));
        Out.line(Short.valueOf((short) 3).compareTo((short) 30));
        Out.line(Character.valueOf('a').compareTo('d'));
        Out.line(Boolean.valueOf(true).compareTo(false));
        Number[] numbers = { i, 1L << 33 | 5, (byte) -7, (short) 300 };
        for (Number n : numbers) {
            Out.numbers(new long[] { n.byteValue(), n.shortValue(), n.intValue(), n.longValue() });
        }
        Integer none = null;
        try {
            plain = none;
        } catch (NullPointerException e) {
            Out.line("null");
        }
        Out.numbers(new long[] { Byte.MIN_VALUE, Byte.MAX_VALUE, Short.MIN_VALUE, Short.MAX_VALUE, Integer.MIN_VALUE, Integer.MAX_VALUE, Long.MIN_VALUE, Long.MAX_VALUE });
    }
}
