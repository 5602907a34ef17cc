import java.util.ArrayList;
import java.util.HashMap;
import java.util.HashSet;

/** What is determined of objects without an equality of their own. */
class Identity {
    static class Plain { }

    public static void main(String[] args) {
        Plain a = new Plain();
        Plain b = new Plain();
        Out.line(a.equals(a));
        Out.line(a.equals(b));
        Out.line(a.equals(null));
        Out.line(a.hashCode() == a.hashCode());
        int[] array = { 1 };
        Out.line(array.equals(array));
        Out.line(array.equals(new int[] { 1 }));
        Out.line(array.hashCode() == array.hashCode());
        HashMap<Object, String> map = new HashMap<Object, String>();
        map.put(a, "a");
        map.put(b, "b");
        map.put(array, "array");
        Out.line(map.get(a) + map.get(b) + map.get(array));
        Out.line(map.get(new Plain()) == null);
        HashSet<Object> set = new HashSet<Object>();
        ArrayList<Object> all = new ArrayList<Object>();
        for (int n = 0; n < 300; n++) {
            Object o = n % 2 == 0 ? new Plain() : new Object();
            set.add(o);
            all.add(o);
        }
        int found = 0;
        for (Object o : all) {
            if (set.contains(o) && set.remove(o) && !set.contains(o)) found++;
        }
        Out.line(found);
        Out.line(set.isEmpty());
    }
}
