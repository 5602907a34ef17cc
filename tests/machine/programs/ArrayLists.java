import java.util.ArrayList;
import java.util.Collection;
import java.util.Iterator;
import java.util.List;
import java.util.NoSuchElementException;

class ArrayLists {
    static void show(Collection<?> all) {
        Out.put(all.size());
        for (Object o : all) {
            Out.put(" ");
            Out.put(String.valueOf(o));
        }
        Out.line();
    }

    public static void main(String[] args) {
        List<String> list = new ArrayList<String>();
        show(list);
        Out.line(list.isEmpty());
        for (int n = 0; n < 12; n++) {
            Out.line(list.add("s" + n));
        }
        show(list);
        Out.line(list.get(0) + list.get(11));
        Out.line(list.set(5, "five"));
        Out.line(list.remove(0));
        Out.line(list.remove(10));
        Out.line(list.remove("five"));
        Out.line(list.remove("not there"));
        show(list);
        Out.line(list.indexOf("s7"));
        Out.line(list.indexOf("s0"));
        Out.line(list.contains("s7"));
        Out.line(list.contains(null));
        list.add(null);
        Out.line(list.indexOf(null));
        Out.line(list.remove(null));
        List<Integer> numbers = new ArrayList<>();
        for (int n = 0; n < 10; n++) {
            numbers.add(n * 200);
        }
        numbers.remove(3);
        Out.line(numbers.remove(Integer.valueOf(1000)));
        show(numbers);
        List<Object> both = new ArrayList<Object>();
        Out.line(both.addAll(list));
        Out.line(both.addAll(numbers));
        Out.line(both.addAll(new ArrayList<String>()));
        show(both);
        Iterator<String> walk = list.iterator();
        while (walk.hasNext()) {
            Out.put(walk.next());
        }
        Out.line();
        try {
            walk.next();
        } catch (NoSuchElementException e) {
            Out.line("at the end");
        }
        int[] wrong = { -1, 8, 100 };
        for (int at : wrong) {
            try { list.get(at); } catch (IndexOutOfBoundsException e) { Out.line("get"); }
            try { list.set(at, "x"); } catch (IndexOutOfBoundsException e) { Out.line("set"); }
            try { list.remove(at); } catch (IndexOutOfBoundsException e) { Out.line("remove"); }
        }
        list.clear();
        show(list);
        list.add("again");
        show(list);
    }
}
