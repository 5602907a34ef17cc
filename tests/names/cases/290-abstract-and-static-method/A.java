abstract class A {
    abstract static void method();
}
