import java.util.*;

class A<T> {
    void f(Object[] o, List[] raws, Object[][] p) {
        Object q;
        q = (T[]) o;
        q = (List<String>[]) raws;
        q = (List<String>[][]) p;
        q = (T[]) p;
        q = (List<String>[][]) o;
    }
}
