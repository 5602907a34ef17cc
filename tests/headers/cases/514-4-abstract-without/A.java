abstract class A {
    abstract void m();
    void n() { }
}
interface B {
    void m();
}
