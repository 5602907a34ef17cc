import java.util.Comparator;

/** Methods whose erasure differs from what they override. */
class Bridges {
    interface Sink<T> { void put(T t); }
    static class Texts implements Sink<String> {
        String last;
        public void put(String t) { last = t; Out.line(t); }
    }
    static class Source<T> { T get() { return null; } }
    static class Numbers extends Source<Integer> { Integer get() { return 42; } }
    static class Low extends Numbers { }
    static class Plain { public void put(String s) { Out.line("plain " + s); } }
    static class Late extends Plain implements Sink<String> { }
    static class Node<T extends Comparable<T>> implements Comparable<Node<T>> {
        final T value;
        Node(T value) { this.value = value; }
        public int compareTo(Node<T> other) { return value.compareTo(other.value); }
    }
    static class ByLength implements Comparator<String> {
        public int compare(String a, String b) { return a.length() - b.length(); }
    }

    static <T extends Comparable<? super T>> T most(T a, T b) { return a.compareTo(b) >= 0 ? a : b; }

    @SuppressWarnings({ "unchecked", "rawtypes" })
    static void pollute(Sink sink, Object value) {
        try {
            sink.put(value);
        } catch (ClassCastException e) {
            Out.line("no cast");
        }
    }

    public static void main(String[] args) {
        Sink<String> sink = new Texts();
        sink.put("one");
        pollute(sink, "two");
        pollute(sink, 3);
        pollute(new Late(), "late");
        pollute(new Late(), new Object());
        Source<Integer> source = new Low();
        int n = source.get() + 1;
        Out.line(n);
        Out.line(most(new Node<String>("a"), new Node<String>("b")).value);
        Out.line(most("x", "w"));
        Comparator<String> by = new ByLength();
        Out.line(by.compare("abc", "d"));
    }
}
