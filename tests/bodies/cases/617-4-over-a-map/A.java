import java.util.Map;
class A {
    void m(Map<String, String> a) {
        for (Object o : (a.keySet())) m(a);
        for (Object o : (a)) m(a);
    }
}
