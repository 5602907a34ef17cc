import java.util.*;

class Pair<T> {
    T t;
    Pair(List<?> l, T t) { this.t = t; }
}

class Main {
    public static void main(String[] args) {
        List raw = new ArrayList();
        Pair<?> p = new Pair<>(raw, "x");
        Object o = p.t;
        System.out.println(o);
    }
}
