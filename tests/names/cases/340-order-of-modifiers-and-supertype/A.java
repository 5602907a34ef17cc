abstract final class A
    extends Nope { }
