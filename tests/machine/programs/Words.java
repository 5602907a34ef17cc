// input: to be or not to be\n
import java.io.IOException;
import java.util.ArrayList;
import java.util.HashMap;
import java.util.List;
import java.util.Map;

/** Counts the words of its input. */
public class Words {
    private final Map<String, Integer> seen = new HashMap<String, Integer>();

    private void add(String w) {
        Integer old = seen.get(w);
        seen.put(w, old == null ? 1 : old + 1);
    }

    static <T extends Comparable<? super T>> T most(Iterable<? extends T> all) {
        T best = null;
        for (T one : all) {
            if (best == null || one.compareTo(best) > 0) best = one;
        }
        return best;
    }

    public static void main(String[] args) throws IOException {
        Words words = new Words();
        List<String> order = new ArrayList<>();
        StringBuilder now = new StringBuilder();
        int c;
        while ((c = System.in.read()) != -1) {
            if (c != ' ' && c != '\n') {
                now.append((char) c);
                continue;
            }
            if (now.length() > 0) {
                String w = now.toString();
                words.add(w);
                if (!order.contains(w)) order.add(w);
                now = new StringBuilder();
            }
        }
        for (String w : order) System.out.println(w + " " + words.seen.get(w));
        System.out.println("last " + most(order));
    }
}
