abstract class A {
    abstract protected final void method();
}
