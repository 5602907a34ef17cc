import java.util.List;
class A {
    boolean m(List<String> s, List<Integer> i) {
        return s != i;
    }
}
