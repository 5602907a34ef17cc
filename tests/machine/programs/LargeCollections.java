import java.util.ArrayList;
import java.util.HashMap;
import java.util.HashSet;
import java.util.List;
import java.util.Map;
import java.util.Set;

class LargeCollections {
    public static void main(String[] args) {
        List<Integer> list = new ArrayList<Integer>();
        Map<String, Integer> map = new HashMap<String, Integer>();
        Set<Long> set = new HashSet<Long>();
        int state = 99;
        for (int n = 0; n < 2000; n++) {
            state = state * 69069 + 1;
            list.add(state >> 8);
            map.put("k" + (state >>> 22), n);
            set.add((long) (state >>> 21) << 20);
        }
        long sum = 0;
        for (int n : list) sum = sum * 31 + n;
        Out.line(sum);
        Out.line(map.size());
        Out.line(set.size());
        int hits = 0;
        for (int n = 0; n < 1024; n++) {
            Integer found = map.get("k" + n);
            if (found != null) hits += found;
        }
        Out.line(hits);
        for (int n = 0; n < 1000; n++) {
            map.remove("k" + n);
            set.remove((long) n << 20);
        }
        Out.line(map.size());
        Out.line(set.size());
        while (list.size() > 1900) list.remove(list.size() - 1);
        Out.line(list.get(1899));
        Out.line(list.indexOf(list.get(1500)));
    }
}
