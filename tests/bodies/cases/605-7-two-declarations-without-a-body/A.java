interface I {
    Object k(String s);
}
interface J {
    String k(String s);
}
class A {
    static <T extends I & J> String m(T t) {
        return t.k("s");
    }
}
