import java.util.List;
class A {
    int m(List<? extends int[]> a) {
        return a.get(0)[0];
    }
}
