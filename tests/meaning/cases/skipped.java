// captures
class Cell<T> { T t; Cell(T t) { this.t = t; } T get() { return t; } }
class Main {
  static <S> boolean same(Cell<S> a, S b) { return a.get() == b; }
  static <R> Cell<? extends R> wrap(R r, int i) { if (i == 1) throw new RuntimeException("no"); return new Cell<R>(r); }
  public static void main(String[] args) {
    Cell<?>[] cells = {new Cell<String>("s"), new Cell<Integer>(1), null};
    for (int i = 0; i < 3; i++) {
      boolean b = i == 0 && same(cells[i], null) || i == 1 && cells[i].get() != null;
      System.out.println(b);
      System.out.println(i < 2 ? cells[i].get() : "none");
    }
    for (int i = 0; i < 2; i++) {
      try { System.out.println(wrap(cells[i].get(), i).get()); } catch (RuntimeException e) { System.out.println(e.getMessage()); }
    }
  }
}
