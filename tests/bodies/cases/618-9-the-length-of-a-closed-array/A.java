class B {
    private static class C { }
    static C[] c;
}
class A {
    int m() {
        for (Object o : B.c) m();
        Object o = B.c[0];
        return B.c.length;
    }
}
