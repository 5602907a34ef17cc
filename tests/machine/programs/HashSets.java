import java.util.ArrayList;
import java.util.HashSet;
import java.util.Iterator;
import java.util.NoSuchElementException;
import java.util.Set;

class HashSets {
    public static void main(String[] args) {
        Set<Integer> set = new HashSet<Integer>();
        for (int n = 0; n < 10; n++) {
            Out.line(set.add(n * n % 10));
        }
        Out.line(set.size());
        for (int n = 0; n < 10; n++) {
            Out.line(set.contains(n));
        }
        Out.line(set.remove(4));
        Out.line(set.remove(4));
        Out.line(set.remove("x"));
        Out.line(set.add(null));
        Out.line(set.contains(null));
        Out.line(set.remove(null));
        int sum = 0;
        for (int n : set) {
            sum += n;
        }
        Out.line(sum);
        ArrayList<Integer> more = new ArrayList<Integer>();
        more.add(0);
        more.add(77);
        Out.line(set.addAll(more));
        Out.line(set.addAll(more));
        Out.line(set.size());
        Iterator<Integer> walk = set.iterator();
        int count = 0;
        while (walk.hasNext()) {
            walk.next();
            count++;
        }
        try {
            walk.next();
        } catch (NoSuchElementException e) {
            Out.line("at the end", count);
        }
        set.clear();
        Out.line(set.isEmpty());
        Out.line(set.iterator().hasNext());
    }
}
