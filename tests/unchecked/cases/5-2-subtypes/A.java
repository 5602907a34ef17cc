import java.util.*;

class Up<T> {
    List<String> f() { return null; }
    T g() { return null; }
    List<?> h() { return null; }
    int i() { return 0; }
    void j() { }
}
class A extends Up<String> {
    ArrayList<String> f() { return null; }
    String g() { return null; }
    List h() { return null; }
    int i() { return 1; }
    void j() { }
}
