class B {
    static final int b = A.a + 1;
}
class A {
    static final int a = B.b + 1;
    void m(int i) {
        switch (i) {
            case a:
        }
    }
}
