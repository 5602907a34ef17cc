import java.util.List;
class A {
    static <T> T first(List<T> l) {
        return l.get(0);
    }
    void m(List<String> l, List raw) {
        String s = first(l);
        String t = first(raw);
    }
}
