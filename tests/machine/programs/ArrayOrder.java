/** When a store tests, and what it leaves. */
class ArrayOrder {
    static int index;

    static int at() { return index++; }

    static String none() { return null; }

    static Object fail(String text) {
        throw new IllegalStateException(text);
    }

    public static void main(String[] args) {
        Object[] strings = { "a", "b" };
        strings = new String[] { "a", "b" };
        try {
            strings[at()] = Integer.valueOf(3);
        } catch (ArrayStoreException e) {
            Out.line("store", index);
        }
        try {
            strings[5] = Integer.valueOf(3);
        } catch (ArrayStoreException e) {
            Out.line("store before range");
        } catch (ArrayIndexOutOfBoundsException e) {
            Out.line("range before store");
        }
        strings[at()] = none();
        Out.line(strings[1] == null);
        try {
            strings[at()] = fail("right side");
        } catch (IllegalStateException e) {
            Out.line(e.getMessage());
        }
        Out.line("index", index);
        long[] longs = null;
        try {
            longs[at()] = 1L << at();
        } catch (NullPointerException e) {
            Out.line("null behind the right side", index);
        }
        try {
            longs[at()]++;
        } catch (NullPointerException e) {
            Out.line("null", index);
        }
    }
}
