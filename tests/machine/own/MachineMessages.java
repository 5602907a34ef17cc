/** What the machine throws has no message. */
class MachineMessages {
    static int zero;
    static class Bad { static int x = 1 / zero; }

    static void fail(int kind) {
        int[] numbers = new int[1];
        Object none = null;
        Object[] texts = new String[1];
        switch (kind) {
            case 0: zero /= zero; break;
            case 1: numbers[1] = 2; break;
            case 2: numbers = new int[-1]; break;
            case 3: none.hashCode(); break;
            case 4: none = (String) (Object) numbers; break;
            case 5: texts[0] = numbers; break;
            case 6: zero = Bad.x; break;
            case 7: zero = Bad.x; break;
            default: throw null;
        }
    }

    public static void main(String[] args) {
        for (int kind = 0; kind < 9; kind++) {
            try {
                fail(kind);
            } catch (Throwable e) {
                Out.line(e.getMessage() == null);
                Out.line(e.toString());
            }
        }
        fail(6);
    }
}
