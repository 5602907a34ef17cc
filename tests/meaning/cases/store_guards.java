interface I { int i(); }
class C { int c() { return 1; } }
class D extends C implements I { public int i() { return 2; } }
class G<T extends I> { T f; }
class H<U extends C & I> { U u; }
class Main {
  static <V extends C & I> C store(G<V> g, V v) { return g.f = v; }
  static <W extends C & I> void try_it(G<W> g, H<W> h) {
    try { store(g, h.u); System.out.println("stored"); } catch (ClassCastException e) { System.out.println(g.f == null); }
  }
  public static void main(String[] args) {
    G<D> g = new G<D>();
    System.out.println(store(g, new D()).c());
    System.out.println(g.f.i());
    H raw = new H();
    raw.u = new C();
    try_it(new G<D>(), raw);
    System.out.println(store(g, null) == null);
    System.out.println(g.f == null);
  }
}
