import java.util.Iterator;
class B {
    private static class C implements Iterable<String> {
        public Iterator<String> iterator() {
            return null;
        }
    }
    static class D extends C { }
    static C c;
    static D d;
}
class A {
    void m() {
        for (String s : B.d) m();
        for (String s : B.c) m();
    }
}
