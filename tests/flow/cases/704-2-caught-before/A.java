class X extends Exception { }
class Y extends X { }
class Z extends Exception { }
class A {
    void f() throws Y { }
    void m() {
        try {
            f();
        } catch (X e) {
        } catch (Y e) {
        }
    }
}
