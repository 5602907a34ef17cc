import java.io.IOException;
class A {
    void m() throws Exception { }
    void n() { }
}
class B extends A {
    void m() throws IOException { }
    void n() throws RuntimeException, Error { }
}
