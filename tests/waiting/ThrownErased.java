import java.util.*;

class Main {
    static <X extends Exception> void m(List<?> l, X x) throws X { }
    static void f(List raw) { m(raw, new RuntimeException()); }
    public static void main(String[] args) { f(null); System.out.println("done"); }
}
