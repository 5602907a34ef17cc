class X extends Exception { }
class Y extends X { }
class Z extends Exception { }
class A {
    void f() throws X { }
    void m() {
        f();
    }
}
