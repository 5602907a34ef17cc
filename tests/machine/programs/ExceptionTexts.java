/** The messages and texts of exceptions that the program makes. */
class ExceptionTexts {
    static class Own extends RuntimeException {
        Own() { }
        Own(String message) { super(message); }
    }

    static class Told extends Exception {
        public String getMessage() { return "told"; }
    }

    static void show(Throwable thrown) {
        Out.line(thrown.toString());
        Out.line(thrown.getMessage() == null ? "no message" : thrown.getMessage());
    }

    public static void main(String[] args) {
        show(new Throwable());
        show(new Throwable("t"));
        show(new Exception("e"));
        show(new RuntimeException());
        show(new Error("x"));
        show(new ArithmeticException("a"));
        show(new ArrayStoreException("b"));
        show(new ClassCastException("c"));
        show(new NegativeArraySizeException("d"));
        show(new NullPointerException("f"));
        show(new IndexOutOfBoundsException("g"));
        show(new ArrayIndexOutOfBoundsException("h"));
        show(new StringIndexOutOfBoundsException("i"));
        show(new IllegalArgumentException("j"));
        show(new NumberFormatException("k"));
        show(new IllegalStateException("l"));
        show(new UnsupportedOperationException("m"));
        show(new NoClassDefFoundError("n"));
        show(new LinkageError("o"));
        show(new java.io.IOException("p"));
        show(new java.util.NoSuchElementException("q"));
        show(new ExceptionInInitializerError("r"));
        show(new Own());
        show(new Own("own"));
        show(new Own(""));
        show(new Told());
        show(new Error());
    }
}
