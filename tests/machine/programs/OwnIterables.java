import java.util.Iterator;
import java.util.NoSuchElementException;

class OwnIterables {
    static class Range implements Iterable<Integer> {
        final int from;
        final int to;
        Range(int from, int to) { this.from = from; this.to = to; }
        public Iterator<Integer> iterator() { return new Walk(from, to); }
    }

    static class Walk implements Iterator<Integer> {
        int at;
        final int to;
        Walk(int at, int to) { this.at = at; this.to = to; }
        public boolean hasNext() { return at < to; }
        public Integer next() {
            if (at >= to) throw new NoSuchElementException("range");
            return at++;
        }
        public void remove() { throw new UnsupportedOperationException("remove"); }
    }

    public static void main(String[] args) {
        long sum = 0;
        for (int a : new Range(0, 20)) {
            for (Integer b : new Range(a, 20)) {
                if (b == 15) continue;
                if (b == 18) break;
                sum += a * b;
            }
        }
        Out.line(sum);
        Iterator<Integer> walk = new Range(5, 6).iterator();
        Out.line(walk.next());
        try {
            walk.next();
        } catch (NoSuchElementException e) {
            Out.line(e.getMessage());
        }
        try {
            walk.remove();
        } catch (UnsupportedOperationException e) {
            Out.line(e.getMessage());
        }
        Iterable<Integer> none = null;
        try {
            for (int n : none) Out.line(n);
        } catch (NullPointerException e) {
            Out.line("null");
        }
    }
}
