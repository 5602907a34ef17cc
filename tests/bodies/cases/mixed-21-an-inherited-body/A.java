import java.util.List;
interface I<T> {
    List<String> f(T t);
}
abstract class D<T> implements I<T> {
    public List f(String s) {
        return null;
    }
}
class K extends D<String> { }
class A {
    String m(I<String> i) {
        return i.f("x").get(0);
    }
}
