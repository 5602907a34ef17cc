import java.util.List;
class A {
    void m(List<?> l, List<? super Integer> s) {
        s.add(1);
        l.add(null);
        l.add(l.get(0));
    }
}
