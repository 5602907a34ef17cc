import java.util.ArrayList;
import java.util.Collection;
class B extends ArrayList<String> { }
class A {
    Object m(Collection<Integer> c) {
        return (B) c;
    }
}
