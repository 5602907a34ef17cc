interface I { int i(); }

class C { int c() { return 1; } }

class D extends C implements I { public int i() { return 2; } }

class G<T extends I> { T f; }

class H<U extends C & I> { U u; }

class Main {
    static <U extends C & I> C m(G<U> g, U u) { return g.f = u; }
    static <U extends C & I> void p(G<U> g, H<U> h) {
        try {
            C c = g.f = h.u;
            System.out.println("stored");
        } catch (ClassCastException e) {
            System.out.println(g.f == null);
        }
    }
    public static void main(String[] args) {
        G<D> g = new G<D>();
        System.out.println(m(g, new D()).c() + g.f.i());
        H raw = new H();
        raw.u = new C();
        p(new G<D>(), raw);
    }
}
