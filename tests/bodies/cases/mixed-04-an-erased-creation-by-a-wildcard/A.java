import java.util.List;
class Pair<T> {
    T t;
    Pair(List<?> l, T t) { }
}
class A {
    void m(List raw) {
        Pair<String> p = new Pair<>(raw, "x");
        int n = new Pair<>(raw, "x").t.length();
    }
}
