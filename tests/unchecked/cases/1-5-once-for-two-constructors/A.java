import java.util.*;

class A {
    static List raw = new ArrayList();
    List<String> l = raw;
    A() {
    }
    A(int n) {
    }
}
