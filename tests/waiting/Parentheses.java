import java.util.*;

class Main {
    static void f(List raw, Object o) {
        List<String> l = (raw);
        List<String> m = ((List<String>) o);
        ((l)).add("x");
    }
    public static void main(String[] args) {
        List<String> l = new ArrayList<String>();
        f(l, l);
        System.out.println(l);
    }
}
