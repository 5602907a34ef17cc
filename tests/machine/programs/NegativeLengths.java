/** A length below zero throws before anything is made. */
class NegativeLengths {
    static int made(int kind, int a, int b) {
        switch (kind) {
            case 0: return new int[a].length;
            case 1: return new String[a].length;
            case 2: return new long[a][b].length;
            case 3: return new Object[a][b][].length;
            case 4: return new boolean[a].length;
            case 5: return new byte[a][].length;
            default: return new char[2][a][b].length;
        }
    }

    public static void main(String[] args) {
        int[] lengths = { 0, 1, 3, -1, -2147483648 };
        for (int kind = 0; kind < 7; kind++) {
            for (int a : lengths) {
                for (int b : lengths) {
                    try {
                        Out.line(made(kind, a, b));
                    } catch (NegativeArraySizeException e) {
                        Out.line("negative");
                    }
                }
            }
        }
    }
}
