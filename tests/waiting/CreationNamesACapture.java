import java.util.*;

class Box<T> {
    T t;
    Box(T t) { this.t = t; }
}

class Main {
    static Number first(List<? extends Number> l) {
        Box<? extends Number> b = new Box<>(l.get(0));
        return b.t;
    }
    public static void main(String[] args) {
        List<Integer> l = new ArrayList<Integer>();
        l.add(1);
        System.out.println(first(l));
    }
}
