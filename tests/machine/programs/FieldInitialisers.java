/** Initialisers of instance fields that need one another, throw, and run once an object. */
class FieldInitialisers {
    static int made;
    final int number = ++made;
    final int[] squares = new int[number];
    { for (int n = 0; n < squares.length; n++) squares[n] = n * n; }
    final FieldInitialisers next = number < 4 ? new FieldInitialisers() : null;
    final int total = (next == null ? 0 : next.total) + squares.length;
    { if (made > 8) throw new IllegalStateException("too many"); }

    public static void main(String[] args) {
        FieldInitialisers one = new FieldInitialisers();
        Out.line(one.total);
        Out.line(one.next.next.next.squares[3]);
        for (int n = 0; n < 6; n++) {
            try {
                Out.line(new FieldInitialisers().number);
            } catch (IllegalStateException e) {
                Out.line(e.getMessage());
            }
        }
        Out.line(made);
    }
}
