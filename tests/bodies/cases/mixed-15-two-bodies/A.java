class G<T> {
    int k(T t, String s) {
        return 1;
    }
    int k(String s, T t) {
        return 2;
    }
}
class A {
    int m(G<Integer> a, G<String> b) {
        return a.k(1, "s") + b.k("a", "b");
    }
}
