import java.util.*;

class A<T> {
    void f(Object o) {
        Object q;
        q = (int[][]) o;
        q = (List<?>[]) o;
        q = (List[]) o;
    }
}
