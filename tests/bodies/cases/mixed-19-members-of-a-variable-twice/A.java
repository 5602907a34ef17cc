import java.util.List;
class A {
    static <T extends List<? extends Number>> void m(T t) {
        t.add(null);
        t.add(t.get(0));
    }
}
