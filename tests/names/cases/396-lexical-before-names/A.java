class A extends Nope { }
