interface I { }

class C { int c() { return 3; } }

class D extends C implements I { }

class J<T extends C> { T f; }

class H<T extends C> { T f; }

class Main {
    static C n(J<? extends I> j, H<C> h) { return h.f = j.f; }
    public static void main(String[] args) {
        J<D> j = new J<D>();
        j.f = new D();
        System.out.println(n(j, new H<C>()).c());
    }
}
