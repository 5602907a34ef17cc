/** A class is initialised at its first creation, static call, or use of a static field that is no constant; by nothing else. */
class InitOnUse {
    static class Created { static { Out.line("created"); } }
    static class Called { static { Out.line("called"); } static int f() { return 1; } }
    static class Read { static { Out.line("read"); } static int x = 5; }
    static class Written { static { Out.line("written"); } static int x = 5; }
    static class Constant { static { Out.line("constant"); } static final int X = 5; static final String T = "text"; }
    static class Boxed { static { Out.line("boxed"); } static final Integer X = 5; }
    static class Array { static { Out.line("array"); } }
    static class Cast { static { Out.line("cast"); } }
    static class Declared { static { Out.line("declared"); } int x; void f() { } }
    static class Raised extends RuntimeException { static { Out.line("raised"); } }

    public static void main(String[] args) {
        Out.line("main");
        new Created();
        new Created();
        Out.line(Called.f());
        Out.line(Called.f());
        Out.line(Read.x);
        Written.x = 7;
        Out.line(Written.x);
        Out.line(Constant.X);
        Out.line(Constant.T);
        Out.line(Boxed.X);
        Array[] array = new Array[3];
        Array[][] arrays = new Array[2][2];
        Out.line(array.length + arrays.length);
        Object o = args;
        Out.line(o instanceof Cast);
        try {
            Out.line(((Cast) o) == null);
        } catch (ClassCastException e) {
            Out.line("no cast");
        }
        Out.line((Cast) null == null);
        Declared none = null;
        try {
            none.f();
        } catch (NullPointerException e) {
            Out.line("null");
        }
        try {
            Out.line(none.x);
        } catch (NullPointerException e) {
            Out.line("null");
        }
        try {
            Out.line("try");
        } catch (Raised e) {
            Out.line("never");
        }
        try {
            throw new Raised();
        } catch (Raised e) {
            Out.line("caught");
        }
    }
}
