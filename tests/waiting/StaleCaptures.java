import java.util.*;

class Main {
    static class Cell<T> {
        T t;
        Cell(T t) { this.t = t; }
        T get() { return t; }
    }
    static <T> Cell<? extends T> wrap(T t, int i) {
        if (i == 1) throw new RuntimeException("no");
        return new Cell<T>(t);
    }
    public static void main(String[] args) {
        List<List<?>> ls = new ArrayList<List<?>>();
        List<Integer> x = new ArrayList<Integer>();
        x.add(1);
        List<String> y = new ArrayList<String>();
        y.add("s");
        ls.add(x);
        ls.add(y);
        for (int i = 0; i < 2; i++) {
            try {
                System.out.println(wrap(ls.get(i).get(0), i).get());
            } catch (RuntimeException e) {
                System.out.println(e.getMessage());
            }
        }
    }
}
