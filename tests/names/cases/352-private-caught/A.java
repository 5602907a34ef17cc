class A {
    void method() {
        try {
        } catch (B.M caught) { }
    }
}
class B {
    private static class M extends RuntimeException { }
}
