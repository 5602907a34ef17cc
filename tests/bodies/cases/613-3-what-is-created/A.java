import java.util.ArrayList;
import java.util.List;
abstract class B {
    B() { }
}
class C extends B {
    C() {
        super();
    }
}
class A {
    void m() {
        Object a = new ArrayList<List<?>>();
        Object b = new B[1];
        Object c = new List<?>[2];
        Object d = new C();
    }
}
