/** The short operators leave out their right side; the others don't. */
class BooleanOperators {
    static int asked;

    static boolean ask(boolean answer) {
        asked++;
        return answer;
    }

    public static void main(String[] args) {
        boolean[] both = { false, true };
        for (int i = 0; i < 2; i++) {
            boolean a = both[i];
            Out.line(!a);
            for (int j = 0; j < 2; j++) {
                boolean b = both[j];
                asked = 0;
                Out.line(ask(a) & ask(b));
                Out.line(ask(a) | ask(b));
                Out.line(ask(a) ^ ask(b));
                Out.line(ask(a) && ask(b));
                Out.line(ask(a) || ask(b));
                Out.line(ask(a) == ask(b));
                Out.line(ask(a) != ask(b));
                Out.line(ask(a) ? ask(b) : !ask(b));
                Out.line(!(ask(a) && !ask(b)) || ask(a) & !ask(b));
                Out.line("asked", asked);
            }
        }
    }
}
