abstract class A {
    protected abstract A() { }
}
