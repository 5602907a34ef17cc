class B {
    static int f;
}
class A {
    int m() {
        return B.f + java.lang.Integer.MAX_VALUE;
    }
    int m(String B, int java) {
        return B.f + java.lang.Integer.MAX_VALUE;
    }
}
