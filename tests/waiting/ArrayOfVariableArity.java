class G<T> {
    Object m(T t) { return Main.arr(t); }
}

class Main {
    static <U> Object arr(U... u) { return u; }
    public static void main(String[] args) {
        System.out.println(new G<String>().m("s") instanceof String[]);
    }
}
