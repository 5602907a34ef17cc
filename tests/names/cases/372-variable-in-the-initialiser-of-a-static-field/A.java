import java.util.ArrayList;

class A<T> {
    Object first = new ArrayList<T>();
    static Object second = new ArrayList<T>();
}
