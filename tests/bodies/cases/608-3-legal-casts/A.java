import java.util.List;
interface I { }
class B { }
class A {
    Object m(Object o, long l, I i, B b, Number n, List<?> s) {
        int a = (int) l;
        byte c = (byte) 'x';
        int d = (Integer) o;
        int e = (int) o;
        byte f = (byte) n;
        long g = (long) (Integer) o;
        B h = (B) i;
        I j = (I) b;
        List<String> k = (List<String>) s;
        Comparable<String> p = (Comparable<String>) o;
        return (Number) 1;
    }
}
