class B<T> {
    T f;
    static String g;
}
class C extends B { }
class A {
    String m(C c) {
        String s = c.g;
        Object o = c.f;
        return c.f;
    }
}
