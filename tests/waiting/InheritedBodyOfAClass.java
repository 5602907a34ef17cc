import java.util.*;

abstract class C<T> { abstract List<String> f(T t); }

abstract class E<T> extends C<T> {
    List f(String s) {
        List<Integer> l = new ArrayList<Integer>();
        l.add(1);
        return l;
    }
}

class L extends E<String> { }

class Main {
    public static void main(String[] args) {
        C<String> c = new L();
        String s = c.f("x").get(0);
        System.out.println(s);
    }
}
