import java.util.List;
class A {
    void m(List<int[]> a) {
        a.get(0)[1] = 2;
        a[0] = null;
    }
}
