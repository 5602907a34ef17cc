import java.util.ArrayList;
import java.util.List;
class A {
    Object m() {
        return (List<String>) new ArrayList<>();
    }
}
