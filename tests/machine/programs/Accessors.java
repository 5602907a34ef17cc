/** Private members that other classes of the same outer class use. */
class Accessors {
    private static int count = 5;
    private int own = 6;
    private static int next() { return ++count; }
    private long twice(long x) { return 2 * x + own; }

    static class Inside {
        private int hidden = 3;
        private Inside() { hidden += next(); }
        private int f(Accessors a) { a.own++; a.own += 10; return a.own-- + count++; }
    }

    private static class Secret {
        private static final int CONSTANT = 9;
        private static int open = 10;
        private String text = "secret";
    }

    public static void main(String[] args) {
        Inside inside = new Inside();
        Out.line(inside.hidden);
        Accessors a = new Accessors();
        Out.line(inside.f(a));
        Out.line(a.own);
        Out.line(count);
        Out.line(a.twice(4));
        Secret secret = new Secret();
        Out.line(secret.text + Secret.CONSTANT + Secret.open);
        secret.text += "!";
        Secret.open *= 2;
        Out.line(secret.text + Secret.open);
    }
}
