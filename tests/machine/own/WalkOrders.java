import java.util.ArrayList;
import java.util.HashMap;
import java.util.HashSet;
import java.util.Iterator;
import java.util.List;
import java.util.Map;
import java.util.Set;

/** Maps and sets walk in the order of insertion, where a present key keeps its place; what they show of themselves are copies. */
class WalkOrders {
    static void show(Iterable<?> all) {
        for (Object o : all) {
            Out.put(String.valueOf(o));
            Out.put(" ");
        }
        Out.line();
    }

    public static void main(String[] args) {
        Map<String, Integer> map = new HashMap<String, Integer>();
        String[] words = { "zeta", "alpha", "mu", "beta", "zeta", "mu" };
        for (int n = 0; n < words.length; n++) {
            map.put(words[n], n);
        }
        show(map.keySet());
        map.remove("alpha");
        map.put("alpha", 9);
        show(map.keySet());
        Set<String> keys = map.keySet();
        keys.remove("mu");
        keys.add("new");
        show(keys);
        show(map.keySet());
        for (Map.Entry<String, Integer> entry : map.entrySet()) {
            Out.put(entry.getKey());
            Out.put(entry.getValue());
            map.put("during" + entry.getKey(), 1);
        }
        Out.line();
        Out.line(map.size());
        Set<Integer> set = new HashSet<Integer>();
        for (int n = 20; n > 0; n -= 3) {
            set.add(n * n);
        }
        show(set);
        List<Integer> list = new ArrayList<Integer>();
        list.addAll(set);
        Iterator<?>[] walks = { list.iterator(), set.iterator(), map.keySet().iterator(), map.entrySet().iterator() };
        for (Iterator<?> walk : walks) {
            walk.next();
            try {
                walk.remove();
            } catch (UnsupportedOperationException e) {
                Out.line("no removal");
            }
        }
        try {
            list.get(-1);
        } catch (ArrayIndexOutOfBoundsException e) {
            Out.line(e.getMessage());
        }
        try {
            list.get(7);
        } catch (IndexOutOfBoundsException e) {
            Out.line(e.getMessage());
        }
        try {
            "abc".charAt(3);
        } catch (StringIndexOutOfBoundsException e) {
            Out.line(e.getMessage());
        }
    }
}
