import java.util.Collection;
import java.util.List;
interface I { }
class B { }
class A {
    boolean m(I i, B b, List<?> l, Collection<String> c, Object o, int[] a) {
        return i == b | l == c | o == a | b != null | null == null | (Boolean) true == true | true == (o == b);
    }
}
