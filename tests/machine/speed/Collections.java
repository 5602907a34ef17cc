import java.util.ArrayList;
import java.util.HashMap;
import java.util.List;
import java.util.Map;

/** Lists, maps and boxes. */
class Collections {
    public static void main(String[] args) {
        List<Integer> list = new ArrayList<Integer>();
        Map<Integer, Integer> map = new HashMap<Integer, Integer>();
        int state = 1;
        for (int n = 0; n < 100000; n++) {
            state = state * 1103515245 + 12345;
            list.add(state >>> 16);
            Integer old = map.get(state >>> 18);
            map.put(state >>> 18, old == null ? 1 : old + 1);
        }
        long sum = 0;
        for (int round = 0; round < 5; round++) {
            for (int n : list) {
                Integer count = map.get(n >>> 2);
                sum += n * (count == null ? 0 : count);
            }
        }
        System.out.println(sum);
        System.out.println(map.size());
    }
}
