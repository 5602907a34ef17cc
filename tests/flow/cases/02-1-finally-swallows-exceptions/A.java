class X extends Exception { }
class Y extends X { }
class Z extends Exception { }
class A {
    int m() {
        try { throw new X(); } finally { return 1; }
    }
}
