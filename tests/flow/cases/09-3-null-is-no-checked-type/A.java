class X extends Exception { }
class A {
    void m() {
        try {
            throw null;
        } catch (X e) { }
    }
}
