import java.util.*;

class Cell<T> {
    T t;
    Cell(T t) { this.t = t; }
    T get() { return t; }
}

class Main {
    static <T> boolean same(Cell<T> a, T b) { return a.get() == b; }
    public static void main(String[] args) {
        List<Cell<?>> cells = new ArrayList<Cell<?>>();
        cells.add(new Cell<String>("s"));
        cells.add(new Cell<Integer>(1));
        for (int i = 0; i < 2; i++) {
            boolean b = i == 0 && same(cells.get(i), null) || i == 1 && cells.get(i).get() != null;
            System.out.println(b);
        }
    }
}
