import java.util.List;
class A {
    List<? extends Number> m(List<Integer> l) {
        List<? extends Number> a = l;
        List<Number> b = l;
        return a;
    }
}
