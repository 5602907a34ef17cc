class X extends Exception { }
class Y extends X { }
class Z extends Exception { }
class A {
    void f() throws Y { }
    void m() throws Y {
        try { f(); } catch (Exception e) {
            if (e == null) e = new Z();
            throw e;
        }
    }
}
