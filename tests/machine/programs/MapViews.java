import java.util.ArrayList;
import java.util.Collection;
import java.util.HashMap;
import java.util.Map;
import java.util.Set;

/** Keys and entries. The keys are put in an order that each map walks in: small numbers upward. */
class MapViews {
    public static void main(String[] args) {
        Map<Integer, String> map = new HashMap<Integer, String>();
        for (int n = 0; n < 10; n++) {
            map.put(n, "v" + n);
        }
        map.remove(3);
        map.put(5, "five");
        for (Integer key : map.keySet()) {
            Out.put(key);
            Out.put(" ");
        }
        Out.line();
        Set<Map.Entry<Integer, String>> entries = map.entrySet();
        for (Map.Entry<Integer, String> entry : entries) {
            Out.line(entry.getKey() + "=" + entry.getValue());
        }
        Out.line(entries.size());
        Map<Integer, String> other = new HashMap<Integer, String>();
        other.put(7, "v7");
        other.put(8, "else");
        for (Map.Entry<Integer, String> entry : other.entrySet()) {
            Out.line(entries.contains(entry));
            Out.line(entry.hashCode());
            Out.line(entry.equals(entry));
        }
        Collection<Integer> keys = new ArrayList<Integer>();
        keys.addAll(map.keySet());
        Out.line(keys.size());
        Out.line(map.keySet().contains(4));
        Out.line(map.keySet().contains(3));
    }
}
