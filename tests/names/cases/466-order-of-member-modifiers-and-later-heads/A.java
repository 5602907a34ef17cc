class A {
    private protected int number;
}
class B extends Nope { }
