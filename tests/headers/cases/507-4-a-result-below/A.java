import java.util.List;
class A<T> {
    T m() { return null; }
    Object n() { return null; }
    List<String> list() { return null; }
}
class B extends A<Number> {
    Integer m() { return null; }
    String n() { return null; }
    List list() { return null; }
}
