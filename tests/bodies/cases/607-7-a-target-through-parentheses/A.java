import java.util.ArrayList;
import java.util.List;
class A {
    List<String> m() {
        List<String> l = ((new ArrayList<>()));
        return (l == null ? l : l);
    }
}
