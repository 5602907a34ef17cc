import java.util.*;

class A {
    void f(List[] raws, List<ArrayList> lists) {
        for (List<String> l :
            raws) {
        }
        for (Collection<String> c
            : (lists)) {
        }
    }
}
