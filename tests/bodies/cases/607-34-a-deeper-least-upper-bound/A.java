import java.util.List;
class A {
    void m(boolean b, List<Integer> i, List<Long> l, List<List<Integer>> j, List<List<Long>> k) {
        Number n = (b ? i : l).get(0);
        List<?> o = (b ? j : k).get(0);
        Number p = (b ? j : k).get(0).get(0);
    }
}
