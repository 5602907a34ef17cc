/** Operands, arguments, indices and right sides from left to right. */
class EvaluationOrder {
    static int say(String name, int value) {
        Out.line(name);
        return value;
    }

    static int[] array(String name, int[] array) {
        Out.line(name);
        return array;
    }

    static EvaluationOrder self(String name) {
        Out.line(name);
        return new EvaluationOrder();
    }

    int field;

    int three(int a, long b, int c) { return (int) (a + b * c); }

    static int zero() { throw new IllegalStateException(); }

    public static void main(String[] args) {
        Out.line(say("a", 1) + say("b", 2) * say("c", 3));
        Out.line((say("d", 1) - say("e", 2)) / say("f", 3));
        Out.line(self("g").three(say("h", 1), say("i", 2), say("j", 3)));
        int[] numbers = { 1, 2, 3 };
        array("k", numbers)[say("l", 1)] = say("m", 7);
        array("n", numbers)[say("o", 1)] += say("p", 7);
        Out.line(numbers[1]);
        self("q").field = say("r", 1);
        self("s").field += say("t", 1);
        int i = 0;
        try {
            array("u", null)[say("v", 0)] = zero();
        } catch (IllegalStateException e) {
            Out.line("right side first");
        }
        try {
            array("w", null)[say("x", 0)] += zero();
        } catch (NullPointerException e) {
            Out.line("null first");
        }
        try {
            array("y", numbers)[say("z", 9)] = zero();
        } catch (IllegalStateException e) {
            Out.line("right side before the range");
        }
        try {
            numbers[i++] += zero();
        } catch (IllegalStateException e) {
            Out.line("i", i);
        }
        int[][] grid = new int[say("rows", 2)][say("columns", 3)];
        grid[say("row", 1)][say("column", 2)] = grid[0].length;
        Out.line(grid[1][2]);
        int j = 1;
        j = j + (j = 5) * j;
        Out.line(j);
        int k = 2;
        numbers[k = 0] = k + 1;
        Out.line(numbers[0]);
    }
}
