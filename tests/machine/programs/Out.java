/** Lines of text, put out by single bytes. */
final class Out {
    private Out() { }

    static void put(String text) {
        for (int at = 0; at < text.length(); at++) {
            System.out.write(text.charAt(at));
        }
    }

    static void put(long number) {
        if (number < 0) {
            System.out.write('-');
        }
        putDigits(number < 0 ? number : -number);
    }

    private static void putDigits(long negative) {
        if (negative <= -10) {
            putDigits(negative / 10);
        }
        System.out.write((int) ('0' - negative % 10));
    }

    static void line() {
        System.out.write('\n');
    }

    static void line(String text) {
        put(text);
        line();
    }

    static void line(long number) {
        put(number);
        line();
    }

    static void line(boolean truth) {
        line(truth ? "true" : "false");
    }

    static void line(String label, long number) {
        put(label);
        System.out.write(' ');
        line(number);
    }

    static void line(String label, boolean truth) {
        put(label);
        System.out.write(' ');
        line(truth);
    }

    /** The numbers on one line. */
    static void numbers(long[] numbers) {
        for (int at = 0; at < numbers.length; at++) {
            if (at > 0) {
                System.out.write(' ');
            }
            put(numbers[at]);
        }
        line();
    }

    /** The kind of a throwable that the machine or the library makes, the exact one. */
    static String kind(Throwable thrown) {
        if (thrown instanceof ArithmeticException) return "Arithmetic";
        if (thrown instanceof ArrayStoreException) return "ArrayStore";
        if (thrown instanceof ClassCastException) return "ClassCast";
        if (thrown instanceof NegativeArraySizeException) return "NegativeArraySize";
        if (thrown instanceof NullPointerException) return "NullPointer";
        if (thrown instanceof ArrayIndexOutOfBoundsException) return "ArrayIndex";
        if (thrown instanceof StringIndexOutOfBoundsException) return "StringIndex";
        if (thrown instanceof IndexOutOfBoundsException) return "Index";
        if (thrown instanceof NumberFormatException) return "NumberFormat";
        if (thrown instanceof IllegalArgumentException) return "IllegalArgument";
        if (thrown instanceof IllegalStateException) return "IllegalState";
        if (thrown instanceof UnsupportedOperationException) return "Unsupported";
        if (thrown instanceof RuntimeException) return "Runtime";
        if (thrown instanceof ExceptionInInitializerError) return "InInitializer";
        if (thrown instanceof NoClassDefFoundError) return "NoClassDef";
        if (thrown instanceof LinkageError) return "Linkage";
        if (thrown instanceof Error) return "Error";
        if (thrown instanceof Exception) return "Exception";
        return "Throwable";
    }
}
