class X extends Exception { }
class Y extends X { }
class Z extends Exception { }
class A {
    void m() {
        try {
            m();
        } catch (X e) { }
    }
}
