/** A class that is being initialised is used at once, with what it has so far. */
class InitInProgress {
    static class Self {
        static int first = early();
        static int second = 7;
        static final Self ONE = new Self();
        static int third = 8;
        int seen = second * 10 + third;

        static int early() { return second + 1; }
    }

    static class Ping {
        static int x = Pong.y + 1;
        static { Out.line("Ping"); }
        static void f() { Out.line(x); }
    }

    static class Pong {
        static int y = Ping.x + 10;
        static { Out.line("Pong"); Ping.f(); }
    }

    static class Up { static int x = Down.y + 1; static { Out.line("Up"); } }
    static class Down extends Up { static int y = 5; static { Out.line("Down"); } }

    public static void main(String[] args) {
        Out.line(Self.first);
        Out.line(Self.ONE.seen);
        Out.line(new Self().seen);
        Out.line(Ping.x);
        Out.line(Pong.y);
        Out.line(Down.y);
        Out.line(Up.x);
    }
}
