/** Dense, sparse and falling switches. */
class Switches {
    static String dense(int n) {
        switch (n) {
            case 0: return "none";
            case 1: return "one";
            case 2: return "two";
            case 3: return "three";
            case 4: return "four";
            case 5: return "five";
        }
        return "many";
    }

    static int sparse(int n) {
        switch (n) {
            case -2147483648: return 1;
            case -1000: return 2;
            case 0: return 3;
            case 70000: return 4;
            case 2147483647: return 5;
            default: return 6;
        }
    }

    static int falling(int n) {
        int sum = 0;
        switch (n) {
            case 1: sum += 1;
            case 2: sum += 2; break;
            default: sum += 100;
            case 4: sum += 4;
            case 5: { sum += 5; break; }
            case 6: ;
        }
        return sum;
    }

    static int empty(int n) {
        switch (n) { }
        switch (n) { default: return 1; }
    }

    static int nested(int a, int b) {
        switch (a) {
            case 1:
                switch (b) {
                    case 1: return 11;
                    case 2: break;
                    default: return 19;
                }
                return 12;
            case 2:
                for (int n = 0; n < 5; n++) {
                    switch (n) {
                        case 3: break;
                        default: continue;
                    }
                    return n;
                }
            default: return 0;
        }
    }

    public static void main(String[] args) {
        for (int n = -1; n < 8; n++) {
            Out.line(dense(n));
            Out.line(falling(n));
        }
        int[] keys = { -2147483648, -2147483647, -1001, -1000, -1, 0, 1, 69999, 70000, 2147483646, 2147483647 };
        for (int key : keys) {
            Out.line(sparse(key));
        }
        Out.line(empty(3));
        for (int a = 0; a < 3; a++) {
            for (int b = 0; b < 4; b++) {
                Out.line(nested(a, b));
            }
        }
    }
}
