class Box<T> {
    T v;
    Box(T v) { this.v = v; }
}

class G<T> {
    T w;
    G(Box<T> b) { w = b.v; }
    T get() { return w; }
}

class Main {
    static void f(Box<?> b) {
        Object o = new G<>(b).get();
        System.out.println(o);
    }
    public static void main(String[] args) {
        f(new Box<String>("x"));
        f(new Box<Integer>(1));
    }
}
