/** A finally block runs at each way out of its try block. */
class FinallyJumps {
    @SuppressWarnings("finally")
    static int jump(int kind) {
        int count = 0;
        loop:
        for (int n = 0; n < 4; n++) {
            try {
                switch (kind) {
                    case 0: continue;
                    case 1: break loop;
                    case 2: return count;
                    case 3: throw new IllegalStateException();
                    case 4: if (n == 2) break;
                    default: count += 100;
                }
            } catch (IllegalStateException e) {
                count += 1000;
                if (n == 1) continue;
                if (n == 2) break;
            } finally {
                count++;
                Out.line("finally", n);
                if (kind == 5 && n == 1) break;
                if (kind == 6) continue loop;
            }
            count += 10;
        }
        return count;
    }

    static int both(int n) {
        for (;;) {
            try {
                try {
                    if (n > 3) break;
                    n++;
                    continue;
                } finally {
                    n += 2;
                }
            } finally {
                n *= 2;
            }
        }
        return n;
    }

    public static void main(String[] args) {
        for (int kind = 0; kind < 8; kind++) {
            Out.line(jump(kind));
        }
        Out.line(both(0));
        Out.line(both(10));
    }
}
