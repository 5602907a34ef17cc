abstract class A {
    abstract void m() { }
}
