// captures
class Num { int n; Num(int n) { this.n = n; } }
class Small extends Num { Small(int n) { super(n); } }
class Box<T> { T t; Box(T t) { this.t = t; } }
class Pair<P> { P p; Pair(Many<?> m, P p) { this.p = p; } }
class Got<G> { G w; Got(Box<G> b) { w = b.t; } G get() { return w; } }
class Many<E> {
  E head; Many<E> tail;
  Many(E head, Many<E> tail) { this.head = head; this.tail = tail; }
  E get(int i) { Many<E> m = this; while (i > 0) { m = m.tail; i--; } return m.head; }
}
class Main {
  static Num first(Many<? extends Num> m) { Box<? extends Num> b = new Box<>(m.get(0)); return b.t; }
  static void show(Box<?> b) { Object o = new Got<>(b).get(); System.out.println(o); }
  static void all(Many<Many<?>> ms) {
    for (int i = 0; i < 2; i++) { Box<?> c = new Box<>(ms.get(i).get(0)); Object o = c.t; System.out.println(o); }
  }
  public static void main(String[] args) {
    System.out.println(first(new Many<Small>(new Small(4), null)).n);
    show(new Box<String>("x"));
    show(new Box<Integer>(1));
    Many<Integer> ones = new Many<Integer>(1, null);
    Many<String> texts = new Many<String>("s", null);
    all(new Many<Many<?>>(ones, new Many<Many<?>>(texts, null)));
    Many raw = texts;
    Pair<?> p = new Pair<>(raw, "unchecked");
    Object o = p.p;
    System.out.println(o);
  }
}
