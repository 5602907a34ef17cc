import java.util.*;

class A {
    <T extends Collection<String>> void f(T t, List<? extends Collection<String>> l) {
        Object p;
        p = (List<String>) t;
        p = (List<String>) l.get(0);
        p = (Collection<String>) t;
    }
}
