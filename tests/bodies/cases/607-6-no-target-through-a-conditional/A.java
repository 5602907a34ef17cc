import java.util.ArrayList;
import java.util.List;
class A {
    List<String> m(boolean b, List<String> l) {
        return b ? l : new ArrayList<>();
    }
}
