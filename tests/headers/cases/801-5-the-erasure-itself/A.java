import java.util.List;
class A {
    void m(List<String> list) { }
    void m(String s) { }
}
class B extends A {
    void m(List list) { }
    void m(Integer i) { }
}
