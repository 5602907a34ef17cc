import java.util.*;

class A<T> {
    <U extends T> void f(Object[] o, Collection<String>[] c, U[] u) {
        Object q;
        q = (String[]) o;
        q = (List<?>[]) o;
        q = (List<String>[]) c;
        q = (T[]) u;
    }
}
