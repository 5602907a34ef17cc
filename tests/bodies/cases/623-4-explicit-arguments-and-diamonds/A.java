import java.util.ArrayList;
import java.util.List;
class A {
    static <T> T go(T t) {
        return t;
    }
    Object m(List<?> l) {
        int[] a = A.<int[]>go(null);
        List<?> b = A.<List<?>>go(l);
        return this.<Object>go(new ArrayList<>());
    }
}
