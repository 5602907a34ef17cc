import java.util.List;
class Pair<T> {
    T t;
    Pair(List<T> l, T t) { }
}
class A {
    void m(List raw) {
        Pair<String> p = new Pair<>(raw, "x");
        Object o = new Pair<>(raw, "x").t;
        int n = new Pair<>(raw, "x").t.length();
    }
}
