import java.util.*;

class A {
    void f(List[] raws, List<ArrayList> lists) {
        for (List<?> l : raws) {
        }
        for (Collection<?> c : lists) {
        }
    }
}
