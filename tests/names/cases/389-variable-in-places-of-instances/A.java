import java.util.ArrayList;
import java.util.List;

class A<T extends Comparable<T>> implements Comparable<A<T>> {
    private T field;
    private final List<T> list = new ArrayList<T>();
    {
        T local = null;
        list.add(local);
    }
    A(T it) {
        field = it;
    }
    A(Object it) {
        this((T) it);
    }
    <U extends T> T method(U it) {
        T local = it;
        for (T one : list) {
            local = one;
        }
        return local;
    }
    public int compareTo(A<T> other) {
        return field.compareTo(other.field);
    }
}
