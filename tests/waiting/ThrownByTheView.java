class G<X extends Exception> {
    void m() throws X { }
}

class Main {
    static void f(G<RuntimeException> g) { g.m(); }
    static void h(G<?> g) {
        try { g.m(); } catch (Exception e) { System.out.println("none"); }
    }
    public static void main(String[] args) {
        f(new G<RuntimeException>());
        h(new G<RuntimeException>());
        System.out.println("done");
    }
}
