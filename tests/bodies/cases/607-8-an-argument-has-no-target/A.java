import java.util.ArrayList;
import java.util.List;
class A {
    static <T> List<T> same(List<T> l) {
        return l;
    }
    List<String> m() {
        return same(new ArrayList<>());
    }
}
