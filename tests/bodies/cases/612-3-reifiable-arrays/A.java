import java.util.List;
import java.util.Map;
class A<T> {
    static class B { }
    void m(Object o) {
        List<String>[] a = new List[2];
        List<?>[] b = {null};
        Map<?, ?>[][] c = new Map<?, ?>[1][];
        B[] d = new B[1];
        boolean e = o instanceof List<?> && o instanceof List[] && o instanceof int[];
    }
}
