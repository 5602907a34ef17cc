import java.util.*;

class A {
    @SuppressWarnings("unchecked")
    List<String> f(List raw) {
        return raw;
    }
}
