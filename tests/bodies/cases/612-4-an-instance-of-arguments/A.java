import java.util.ArrayList;
import java.util.List;
class A {
    boolean m(List<String> l) {
        return l instanceof ArrayList<String>;
    }
}
