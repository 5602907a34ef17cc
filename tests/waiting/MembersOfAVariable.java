import java.util.*;

class Main {
    static <E> E id(E e) { return e; }
    static <T extends List<? extends Number>> void g(T t) {
        Number n = id(t.get(0));
        System.out.println(n);
    }
    public static void main(String[] args) {
        List<Integer> l = new ArrayList<Integer>();
        l.add(4);
        g(l);
    }
}
