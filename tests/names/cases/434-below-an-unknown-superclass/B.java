class B extends Nope { }
