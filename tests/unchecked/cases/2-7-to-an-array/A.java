import java.util.*;

class A<T> {
    void f(Object o) {
        Object q;
        q = (T[]) o;
        q = (List<String>[][]) o;
    }
}
