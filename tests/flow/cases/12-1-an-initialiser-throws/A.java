class X extends Exception { }
class Y extends X { }
class Z extends Exception { }
class A {
    static int f() throws X { return 1; }
    int x = f();
    A() throws X { }
    A(int i) { }
}
