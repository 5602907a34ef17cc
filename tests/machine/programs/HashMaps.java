import java.util.HashMap;
import java.util.Map;

class HashMaps {
    static class Key {
        final int id;
        Key(int id) { this.id = id; }
        public int hashCode() { return id % 3; }
        public boolean equals(Object o) { return o instanceof Key && ((Key) o).id == id; }
    }

    public static void main(String[] args) {
        Map<String, Integer> map = new HashMap<String, Integer>();
        Out.line(map.isEmpty());
        Out.line(map.put("one", 1) == null);
        Out.line(map.put("two", 2) == null);
        Out.line(map.put("one", 11));
        Out.line(map.get("one") + map.get("two"));
        Out.line(map.get("three") == null);
        Out.line(map.containsKey("two"));
        Out.line(map.containsKey("three"));
        Out.line(map.size());
        Out.line(map.remove("one"));
        Out.line(map.remove("one") == null);
        Out.line(map.size());
        map.put(null, 5);
        Out.line(map.get(null));
        map.put("null", null);
        Out.line(map.containsKey("null"));
        Out.line(map.get("null") == null);
        Out.line(map.remove(null));
        map.clear();
        Out.line(map.size());
        Map<Key, Integer> crowded = new HashMap<Key, Integer>();
        for (int n = 0; n < 60; n++) {
            crowded.put(new Key(n), n * n);
        }
        long sum = 0;
        for (int n = 0; n < 60; n += 2) {
            sum = sum * 3 + crowded.remove(new Key(n));
        }
        for (int n = 0; n < 60; n++) {
            Integer found = crowded.get(new Key(n));
            sum = sum * 3 + (found == null ? -1 : found);
        }
        Out.line(sum);
        Out.line(crowded.size());
        Map<Integer, Integer> counts = new HashMap<Integer, Integer>();
        int state = 1;
        for (int n = 0; n < 3000; n++) {
            state = state * 1103515245 + 12345;
            int key = state >>> 16 & 511;
            Integer old = counts.get(key);
            counts.put(key, old == null ? 1 : old + 1);
        }
        Out.line(counts.size());
        sum = 0;
        for (int key = 0; key < 512; key++) {
            Integer count = counts.get(key);
            sum = sum * 7 + (count == null ? 0 : count);
        }
        Out.line(sum);
        sum = 0;
        for (Map.Entry<Integer, Integer> entry : counts.entrySet()) {
            sum += entry.getKey() * entry.getValue();
        }
        Out.line(sum);
    }
}
