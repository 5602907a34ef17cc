import java.util.*;

class Main {
    interface I { }
    static class A { }
    static final class Z { }
    static boolean f(I i, A a) { return i == a; }
    static boolean g(List<?> l, Collection<String> c) { return l == c; }
    public static void main(String[] args) {
        System.out.println(f(null, null));
        System.out.println(g(null, new ArrayList<String>()));
    }
}
