import java.util.*;

class Cell<T> {
    T t;
    Cell(T t) { this.t = t; }
}

class Main {
    static void all(List<? extends List<?>> ls) {
        for (int i = 0; i < ls.size(); i++) {
            Cell<? extends Object> c = new Cell<>(ls.get(i).get(0));
            System.out.println(c.t);
        }
    }
    public static void main(String[] args) {
        List<List<?>> ls = new ArrayList<List<?>>();
        List<Integer> x = new ArrayList<Integer>();
        x.add(1);
        List<String> y = new ArrayList<String>();
        y.add("s");
        ls.add(x);
        ls.add(y);
        all(ls);
    }
}
