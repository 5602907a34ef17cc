import java.util.ArrayList;
import java.util.List;

class Generics {
    static class Pair<A, B> {
        final A first;
        final B second;
        Pair(A first, B second) { this.first = first; this.second = second; }
        Pair<B, A> turned() { return new Pair<B, A>(second, first); }
        static <T> Pair<T, T> twice(T t) { return new Pair<T, T>(t, t); }
    }

    static <T extends Comparable<T>> T most(List<? extends T> list) {
        T best = list.get(0);
        for (T one : list) if (one.compareTo(best) > 0) best = one;
        return best;
    }

    static <E> void swap2(List<E> list) {
        E held = list.get(0);
        list.set(0, list.get(1));
        list.set(1, held);
    }

    static void swap(List<?> list) { swap2(list); }

    static long sum(List<? extends Number> list) {
        long sum = 0;
        for (Number n : list) sum += n.longValue();
        return sum;
    }

    @SafeVarargs
    static <T> List<T> of(T... all) {
        List<T> list = new ArrayList<T>();
        for (T one : all) list.add(one);
        return list;
    }

    @SuppressWarnings({ "unchecked", "rawtypes" })
    static void pollute(List list) { list.add("text"); }

    public static void main(String[] args) {
        Pair<String, Integer> pair = new Pair<String, Integer>("a", 5);
        Out.line(pair.turned().first + 1);
        Out.line(pair.turned().second);
        Out.line(Pair.twice("z").second);
        Out.line(most(of(3, 9, 4)));
        Out.line(most(of("b", "c", "a")));
        List<String> two = of("a", "b");
        swap(two);
        Out.line(two.get(0) + two.get(1));
        Out.line(sum(of(1, 2, 3)) + sum(of(1L << 40)));
        List<Integer> numbers = of(1, 2);
        pollute(numbers);
        Out.line(numbers.size());
        Object o = numbers.get(2);
        Out.line(o instanceof String);
        try {
            int n = numbers.get(2);
            Out.line(n);
        } catch (ClassCastException e) {
            Out.line("no number");
        }
    }
}
