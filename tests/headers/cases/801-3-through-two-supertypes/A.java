import java.util.List;
interface I {
    void m(List<String> list);
}
interface J {
    void m(List<Integer> list);
}
interface K extends I, J { }
