// captures
class S { }
class R { }
class Box<T> { T t; Box(T t) { this.t = t; } }
class Many<E> {
  E head; Many<E> tail;
  Many(E head, Many<E> tail) { this.head = head; this.tail = tail; }
  E get(int i) { Many<E> m = this; while (i > 0) { m = m.tail; i--; } return m.head; }
}
class OfBox<G> { OfBox(Box<G> b) { Main.say(new G[] {} instanceof S[]); } }
class OfOne<O> { OfOne(O o) { Main.say(new O[] {} instanceof S[]); } }
class Pair<P> { Pair(Many<?> m, P p) { Main.say(new P[] {} instanceof S[]); } }
class Main {
  static void say(boolean b) { System.out.println(b ? "Y" : "N"); }
  static void twice(Box<?> b) { for (int i = 0; i < 2; i++) { new OfBox<>(b); } }
  static void each(Many<Many<?>> ms) { for (int i = 0; i < 2; i++) { new OfOne<>(ms.get(i).get(0)); } }
  public static void main(String[] args) {
    twice(new Box<S>(new S()));
    System.out.println("-");
    twice(new Box<R>(new R()));
    System.out.println("-");
    Many<S> some = new Many<S>(new S(), null);
    Many<R> others = new Many<R>(new R(), null);
    each(new Many<Many<?>>(some, new Many<Many<?>>(others, null)));
    each(new Many<Many<?>>(others, new Many<Many<?>>(some, null)));
    System.out.println("-");
    Many raw = others;
    new Pair<>(raw, new S());
    new Pair<>(raw, new R());
    new Pair(raw, new S());
  }
}
