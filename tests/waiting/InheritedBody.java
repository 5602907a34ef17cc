import java.util.*;

interface I<T> { List<String> f(T t); }

abstract class D<T> implements I<T> {
    public List f(String s) {
        List<Integer> l = new ArrayList<Integer>();
        l.add(1);
        return l;
    }
}

class K extends D<String> { }

class Main {
    public static void main(String[] args) {
        I<String> i = new K();
        String s = i.f("x").get(0);
        System.out.println(s);
    }
}
