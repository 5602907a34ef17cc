abstract class A {
    abstract Nope method();
}
