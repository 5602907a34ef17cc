abstract class A {
    abstract
        int
        number;
}
