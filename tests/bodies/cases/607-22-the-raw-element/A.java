import java.util.List;
class A {
    void m(List l) {
        for (Object o : l) m(l);
        for (String s : l) m(l);
    }
}
