abstract class A {
    private abstract void method();
}
