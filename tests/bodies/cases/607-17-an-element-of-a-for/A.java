import java.util.List;
class A {
    void m(List<? extends Number> l) {
        for (Number n : l) m(l);
        for (Integer i : l) m(l);
    }
}
